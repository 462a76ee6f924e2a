/* printf and the others that print. What one call puts on the console goes there by one call of the kernel, so texts of threads don't mix,
   and there is no lock and no shared word. Only a text for which the stack has no room goes in pieces. */
#include "block.h"
#include "program.h"
#include "sink.h"

#include <errno.h>
#include <stdio.h>
#include <stdlib.h>
#include <string.h>
#include <unistd.h>

enum { SHORT_TEXT = 128, LEFT_ON_STACK = 512 };

static int is_console(const FILE *f) { return f == stdout || f == stderr; }

/* ---- to the console */

static void count(struct sink *s, char c) {
    (void)c;
    s->earlier++;
}

static void put_piece(struct sink *s, char c) {
    unsigned length = (unsigned)(s->at - s->begin);
    __put(s->begin, length);
    s->earlier += length;
    s->at = s->begin;
    *s->at++ = c;
}

static unsigned left_on_stack(void) {
    char here, *end = stack_end(me());
    return &here > end ? (unsigned)(&here - end) : 0;
}

static __attribute__((noinline)) int print_long(const char *format, va_list list, unsigned length) {
    char text[length];
    struct sink s = {text, text, text + length, 0, put_piece};
    int result = __format(&s, format, list);
    __put(text, (unsigned)(s.at - text));
    return result;
}

static int print(const char *format, va_list list) {
    char text[SHORT_TEXT];
    struct sink s = {text, text, text + sizeof text, 0, count};
    int result = __format(&s, format, list);
    if (s.earlier == 0)
        __put(text, (unsigned)(s.at - text));
    else
        print_long(format, list, length_of(&s) + LEFT_ON_STACK < left_on_stack() ? length_of(&s) : SHORT_TEXT);
    return result;
}

/* ---- to another stream, which takes a character at a time */

struct stream_sink { struct sink sink; FILE *file; };

static void put_to_stream(struct sink *s, char c) {
    FILE *f = ((struct stream_sink *)s)->file;
    f->put(c, f);
    s->earlier++;
}

int vfprintf(FILE *f, const char *format, va_list list) {
    if (is_console(f))
        return print(format, list);
    struct stream_sink s = {{NULL, NULL, NULL, 0, put_to_stream}, f};
    return __format(&s.sink, format, list);
}

int vprintf(const char *format, va_list list) { return print(format, list); }

int printf(const char *format, ...) {
    va_list list;
    va_start(list, format);
    int result = print(format, list);
    va_end(list);
    return result;
}

int fprintf(FILE *f, const char *format, ...) {
    va_list list;
    va_start(list, format);
    int result = vfprintf(f, format, list);
    va_end(list);
    return result;
}

int vdprintf(int file, const char *format, va_list list) {
    if (file == STDOUT_FILENO || file == STDERR_FILENO)
        return print(format, list);
    errno = EBADF;
    return -1;
}

int dprintf(int file, const char *format, ...) {
    va_list list;
    va_start(list, format);
    int result = vdprintf(file, format, list);
    va_end(list);
    return result;
}

/* ---- to memory */

int vsnprintf(char *to, size_t room, const char *format, va_list list) {
    struct sink s = {to, to, room ? to + room - 1 : to, 0, count};
    int result = __format(&s, format, list);
    if (room)
        *s.at = 0;
    return result;
}

int snprintf(char *to, size_t room, const char *format, ...) {
    va_list list;
    va_start(list, format);
    int result = vsnprintf(to, room, format, list);
    va_end(list);
    return result;
}

int vsprintf(char *to, const char *format, va_list list) { return vsnprintf(to, ~(uintptr_t)to, format, list); }

int sprintf(char *to, const char *format, ...) {
    va_list list;
    va_start(list, format);
    int result = vsprintf(to, format, list);
    va_end(list);
    return result;
}

/* ---- without a format */

static void put_bytes(FILE *f, const char *from, unsigned length) {
    if (is_console(f))
        __put(from, length);
    else
        for (; length > 0; length--, from++)
            f->put(*from, f);
}

int fputs(const char *text, FILE *f) {
    put_bytes(f, text, strlen(text));
    return 0;
}

int puts(const char *text) {
    char line[SHORT_TEXT];
    unsigned length = strlen(text);
    if (length >= sizeof line)
        return printf("%s\n", text);
    memcpy(line, text, length);
    line[length] = '\n';
    __put(line, length + 1);
    return 0;
}

int fputc(int c, FILE *f) {
    char one = (char)c;
    put_bytes(f, &one, 1);
    return (unsigned char)c;
}

#undef putc
int putc(int c, FILE *f) { return fputc(c, f); }
#undef putchar
int putchar(int c) { return fputc(c, stdout); }

size_t fwrite(const void *from, size_t size, size_t many, FILE *f) {
    put_bytes(f, from, size * many);
    return many;
}

void perror(const char *text) {
    if (text && *text)
        fprintf(stderr, "%s: %s\n", text, strerror(errno));
    else
        fprintf(stderr, "%s\n", strerror(errno));
}

int fflush(FILE *f) { (void)f; return 0; }
