/* How a program begins and ends. It ends when main returns, or when a thread calls exit or fails. The code is that of the first who ends
   it. The kernel can't stop other threads, so those go on, but can't be seen any more: what they print is dropped, and their code is 0. */
#include "program.h"
#include "kernel.h"
#include "wait.h"

#include <stdlib.h>
#include <string.h>
#include <unistd.h>

extern void (*__init_array_start[])(void), (*__init_array_end[])(void);
extern unsigned __null_page[];
extern int __argument_count;
extern char *__arguments[];
int main(int, char **, char **);
void __check_heap(void) __attribute__((weak));
void __start_chances(void) __attribute__((weak));
unsigned __program_over;
static char *no_environment[1];
char **environ = no_environment;

_Noreturn static void end_thread(unsigned code) {
    kernel(code & 255, 0, 0, CALL_EXIT);
    __builtin_unreachable();
}

_Noreturn void __end_first_thread(void) { end_thread(LOAD(__program_over)); }

/* The code that the program has ended with before, or 0. */
static unsigned is_over_with(unsigned code) {
    unsigned before = LOAD(__program_over);
    return before ? before : SWAP(__program_over, code);
}

_Noreturn void _exit(int status) {
    unsigned mine = 0x100 | (status & 255), before = is_over_with(mine);
    if (before == 0)
        end_thread(mine);
    STORE(__program_over, before);
    end_thread(me()->slot == 0 ? before : 0);
}

_Noreturn void _Exit(int status) { _exit(status); }

/* ---- stacks: the lowest words of each have a mark, which is there as long as nothing has grown over it */

enum { MARKS = 8, STACK_MARK = 0x57ACC0DE, NULL_WORDS = 16, NULL_MARK = 0x4E554C4D };

void __mark_stack(struct thread *t) {
    unsigned *marks = (unsigned *)stack_end(t);
#pragma GCC unroll 8
    for (unsigned j = 0; j < MARKS; j++)
        marks[j] = STACK_MARK;
}

/* Whether the words have the mark. They are added up, eight at a time without a branch, since every program does this at its end. */
static int are_whole(const unsigned *words, unsigned count, unsigned mark) {
    unsigned sum = 0;
    for (const unsigned *end = words + count; words < end; words += 8)
#pragma GCC unroll 8
        for (unsigned j = 0; j < 8; j++)
            sum += words[j];
    return sum == count * mark;
}

void __check_stack(struct thread *t) {
    if (!are_whole((unsigned *)stack_end(t), MARKS, STACK_MARK))
        __fail("a stack has grown past its end: give delorean-cc a larger --stack", "");
}

/* ---- failing */

static unsigned append(char *line, unsigned length, unsigned room, const char *text) {
    while (*text && length < room)
        line[length++] = *text++;
    return length;
}

/* The message on the console, and the code 134. */
_Noreturn void __fail(const char *what, const char *rest) {
    char line[160];
    unsigned length = append(line, 0, sizeof line - 1, what);
    length = append(line, length, sizeof line - 1, rest);
    line[length++] = '\n';
    __put(line, length);
    _exit(FAILED);
}

void abort(void) { __fail("aborted", ""); }

static const char *base_name(const char *path) {
    const char *slash = strrchr(path, '/');
    return slash ? slash + 1 : path;
}

static const char *decimal(char digits[12], unsigned number) {
    char *at = digits + 11;
    *at = 0;
    do
        *--at = (char)('0' + number % 10);
    while (number /= 10);
    return at;
}

_Noreturn void __assert_func(const char *file, int line, const char *function, const char *what) {
    char text[96], digits[12];
    const char *parts[] = {base_name(file), ":", decimal(digits, (unsigned)line), ": ", function, ": assertion failed: "};
    unsigned length = 0;
    for (unsigned j = 0; j < sizeof parts / sizeof *parts; j++)
        length = append(text, length, sizeof text - 1, parts[j]);
    text[length] = 0;
    __fail(text, what);
}

/* ---- exit */

enum { MOST_HANDLERS = 32 };
static void (*handlers[MOST_HANDLERS])(void), (*quick_handlers[MOST_HANDLERS])(void);
static unsigned handler_count, quick_count;

int atexit(void (*function)(void)) {
    unsigned at = ADD(handler_count, 1);
    if (at >= MOST_HANDLERS)
        return -1;
    handlers[at] = function;
    return 0;
}

int at_quick_exit(void (*function)(void)) {
    unsigned at = ADD(quick_count, 1);
    if (at >= MOST_HANDLERS)
        return -1;
    quick_handlers[at] = function;
    return 0;
}

static void run_last_first(void (**functions)(void), unsigned *count) {
    while (*count > 0) {
        unsigned last = --*count;
        if (last < MOST_HANDLERS)
            functions[last]();
    }
}

/* What can be seen to be wrong once all is over. The page at 0 is one that no pointer of the program leads to. */
static void check_memory(void) {
    if (!are_whole(__null_page, NULL_WORDS, NULL_MARK))
        __fail("something was stored through a null pointer: delorean's trace tells who stored to word 0", "");
    if (__check_heap)
        __check_heap();
    __check_stack(me());
}

_Noreturn void exit(int status) {
    if (handler_count)
        run_last_first(handlers, &handler_count);
    check_memory();
    _exit(status);
}

_Noreturn void quick_exit(int status) {
    run_last_first(quick_handlers, &quick_count);
    _exit(status);
}

void __start_program(void) {
    __mark_stack(me());
    if (__numbers.tls_filled)
        memcpy(tp_of(me()), __tls_start, __numbers.tls_filled);
    for (void (**f)(void) = __init_array_start; f < __init_array_end; f++)
        (*f)();
    if (__start_chances)
        __start_chances();
    exit(main(__argument_count, __arguments, environ));
}
