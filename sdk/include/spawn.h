#error "spawn.h: there is one process: take threads"
