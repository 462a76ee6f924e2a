#error "omp.h: there is no OpenMP: take pthreads"
