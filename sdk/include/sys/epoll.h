#error "sys/epoll.h: there are no files to wait for: take a condition variable"
