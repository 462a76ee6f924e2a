#error "sys/un.h: there is no network here"
