#error "netinet/in.h: there is no network here"
