#error "netinet/tcp.h: there is no network here"
