#error "arpa/inet.h: there is no network here"
