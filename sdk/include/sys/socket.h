#error "sys/socket.h: there is no network here"
