#error "aio.h: there are no files"
