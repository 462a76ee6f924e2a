#error "sys/eventfd.h: there are no files to wait for: take a condition variable"
