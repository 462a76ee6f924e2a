#error "sys/wait.h: there is one process: take threads"
