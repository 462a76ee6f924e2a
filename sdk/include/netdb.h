#error "netdb.h: there is no network here"
