#error "dlfcn.h: nothing is linked at run time"
