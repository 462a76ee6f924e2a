/* The C library's, and what POSIX adds. There are no signals, so there is no mask to be kept. */
#ifndef DELOREAN_SETJMP_H
#define DELOREAN_SETJMP_H

#include_next <setjmp.h>

typedef jmp_buf sigjmp_buf;
#define sigsetjmp(buffer, has_mask) ((void)(has_mask), setjmp(buffer))
#define siglongjmp(buffer, value) longjmp((buffer), (value))
#define _setjmp(buffer) setjmp(buffer)
#define _longjmp(buffer, value) longjmp((buffer), (value))

#endif
