/* The calls of the kernel, the words of the devices, and threads with stacks, for programs that delorean runs. */
#ifndef DELOREAN_H
#define DELOREAN_H

/* What a call answers if it isn't done. */
#define UNKNOWN 0xFFFFFFFFu     /* there is no such call */
#define BAD_BUFFER 0xFFFFFFFEu  /* the buffer ends beyond the memory; a dma's isn't at a multiple of 4 */
#define NOTHING_NOW 0xFFFFFFFDu /* the pipe is full or empty, or the input is at its end: try again later */
#define REFUSED 0xFFFFFFFCu     /* the call's own rule, below */

enum { CONSOLE = 8, INPUT = 9 }; /* channels beside the pipes, which are 0 to 7 */

/* In start.S. */
unsigned kernel(unsigned first, unsigned second, unsigned third, unsigned number);
void thread_entry(void);
void interrupt_entry(void);

/* This thread ends with the code. */
static inline _Noreturn void exit(unsigned code) {
    kernel(code, 0, 0, 0);
    __builtin_unreachable();
}

/* A new thread that begins at entry, with sp and, in a0, arg; its number. Refused if there are as many as there may be, or
   if entry isn't a multiple of 4. For functions of C there is start_thread. */
static inline unsigned spawn(void (*entry)(void), void *sp, unsigned arg) {
    return kernel((unsigned)entry, (unsigned)sp, arg, 1);
}

/* Bytes go to a pipe, which has room for 256, or to the console; how many went. Refused for other channels. */
static inline unsigned write(unsigned channel, const void *from, unsigned length) {
    return kernel(channel, (unsigned)from, length, 2);
}

/* Bytes come from a pipe or the input; how many came. Refused for other channels. */
static inline unsigned read(unsigned channel, void *to, unsigned length) {
    return kernel(channel, (unsigned)to, length, 3);
}

/* Random bytes come; the length. */
static inline unsigned random(void *to, unsigned length) { return kernel((unsigned)to, length, 0, 4); }

/* The number of events before the one that granted this call. */
static inline unsigned clock(void) { return kernel(0, 0, 0, 5); }

/* Where this thread's interrupts begin: interrupt_entry, or 0 for none; 0. Refused if it isn't a multiple of 4. */
static inline unsigned handler(void (*entry)(void)) { return kernel((unsigned)entry, 0, 0, 6); }

/* Asks for bytes of the input: when the request is done, their number is at to, and they come after it; 0. Refused while
   a request of this sphere is outstanding. */
static inline unsigned dma(volatile unsigned *to, unsigned length) { return kernel((unsigned)to, length, 0, 8); }

/* This thread's number. */
static inline unsigned self(void) { return kernel(0, 0, 0, 9); }

/* Ends a chunk, and does nothing else; 0. */
static inline unsigned yield(void) { return kernel(0, 0, 0, 10); }

/* 1 if the thread has ended or faulted, else 0. Refused if there is none. */
static inline unsigned ended(unsigned thread) { return kernel(thread, 0, 0, 11); }

/* The devices' words: the moment, the next byte of the input or 0xFFFFFFFF, and the console. */
#define MOMENT (*(volatile const unsigned *)0xF0000000u)
#define INPUT_BYTE (*(volatile const unsigned *)0xF0000004u)
#define CONSOLE_BYTE (*(volatile unsigned *)0xF0000008u)

/* The program's own, if it calls handler(interrupt_entry). */
void on_interrupt(unsigned value);

struct stack {
    unsigned words[64];
} __attribute__((aligned(16)));

/* A thread that calls the function and ends with what it returns; its number. */
static inline unsigned start_thread(unsigned (*function)(unsigned), unsigned argument, struct stack *stack) {
    volatile unsigned *top = stack->words + sizeof stack->words / sizeof *stack->words - 4;
    top[0] = (unsigned)function;
    top[1] = argument;
    return spawn(thread_entry, (void *)top, 0);
}

/* Waits until the thread has ended. */
static inline void join(unsigned thread) {
    while (ended(thread) == 0)
        ;
}

/* Puts a text on the console. */
static inline void print(const char *text) {
    unsigned length = 0;
    while (text[length] != 0)
        length++;
    write(CONSOLE, text, length);
}

/* Ends the thread by a fault if what must hold doesn't. A search for --bad fault ends there. */
#define must(holds)           \
    do {                      \
        if (!(holds))         \
            __builtin_trap(); \
    } while (0)

#endif
