#error "poll.h: there are no files to wait for: take a condition variable"
