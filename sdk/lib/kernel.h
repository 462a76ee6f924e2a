/* The calls of the kernel that the library makes. docs/machine.md says what each does. */
#ifndef DELOREAN_KERNEL_H
#define DELOREAN_KERNEL_H

enum { CALL_EXIT, CALL_SPAWN, CALL_WRITE, CALL_READ, CALL_RANDOM, CALL_CLOCK, CALL_YIELD = 10, CALL_ENDED };
enum { CONSOLE = 8, INPUT = 9 };
enum { LONGEST = 4096 };                 /* bytes of one write or read */
#define NOTHING_NOW 0xFFFFFFFDu
#define REFUSED 0xFFFFFFFCu

static inline unsigned kernel(unsigned a, unsigned b, unsigned c, unsigned number) {
    register unsigned a0 __asm__("a0") = a, a1 __asm__("a1") = b, a2 __asm__("a2") = c, a7 __asm__("a7") = number;
    __asm__ volatile("ecall" : "+r"(a0) : "r"(a1), "r"(a2), "r"(a7) : "memory");
    return a0;
}

static inline unsigned has_ended(unsigned number) { return kernel(number, 0, 0, CALL_ENDED); }

#endif
