#error "sys/mman.h: memory can't be mapped: take malloc, and a larger --heap"
