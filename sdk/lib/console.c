/* The console and the input, as they are. */
#include "kernel.h"
#include "program.h"
#include "wait.h"

#include <errno.h>
#include <unistd.h>

/* After the program's end nothing is printed any more. */
void __put(const char *text, unsigned length) {
    if (LOAD(__program_over)) {
        if (me()->slot == 0)
            __end_first_thread();
        return;
    }
    while (length) {
        unsigned piece = length < LONGEST ? length : LONGEST;
        kernel(CONSOLE, (unsigned)(uintptr_t)text, piece, CALL_WRITE);
        text += piece;
        length -= piece;
    }
}

ssize_t write(int file, const void *from, size_t length) {
    if (file != STDOUT_FILENO && file != STDERR_FILENO) {
        errno = EBADF;
        return -1;
    }
    __put(from, length);
    return (ssize_t)length;
}

/* 0 at the end of the input. */
ssize_t read(int file, void *to, size_t length) {
    if (file != STDIN_FILENO) {
        errno = EBADF;
        return -1;
    }
    unsigned count = kernel(INPUT, (unsigned)(uintptr_t)to, length, CALL_READ);
    return count == NOTHING_NOW ? 0 : (ssize_t)count;
}

int isatty(int file) { (void)file; return 0; }
