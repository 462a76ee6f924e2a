/* Refuses one request for memory of the program that it is loaded into by LD_PRELOAD.

   REFUSED_AT is the number of that request, from 1, among all calls of malloc, calloc and realloc after the start of the
   process, and REFUSED_MARK a file that is made when it is refused. Only a process whose first word is REFUSED_WORD
   counts, so that shells and tools on the way to the program don't. */
#define _GNU_SOURCE
#include <dlfcn.h>
#include <errno.h>
#include <fcntl.h>
#include <stdint.h>
#include <stdlib.h>
#include <string.h>
#include <sys/mman.h>
#include <unistd.h>

extern void *__libc_malloc(size_t);
extern void *__libc_calloc(size_t, size_t);
extern void *__libc_realloc(void *, size_t);

static void *(*real_malloc)(size_t) = __libc_malloc;
static void *(*real_calloc)(size_t, size_t) = __libc_calloc;
static void *(*real_realloc)(void *, size_t) = __libc_realloc;

/* How many requests are granted before the refused one; below 0 after it, and if none is refused. */
static long left = -1;
static const char *mark;

static int refuses(void) {
    if (left < 0 || left-- > 0)
        return 0;
    int file = open(mark, O_WRONLY | O_CREAT, 0666);
    if (file >= 0)
        close(file);
    errno = ENOMEM;
    return 1;
}

static void *refusing_malloc(size_t size) { return refuses() ? NULL : real_malloc(size); }

static void *refusing_calloc(size_t number, size_t size) { return refuses() ? NULL : real_calloc(number, size); }

static void *refusing_realloc(void *old, size_t size) { return refuses() ? NULL : real_realloc(old, size); }

void *malloc(size_t size) __attribute__((alias("refusing_malloc")));
void *calloc(size_t number, size_t size) __attribute__((alias("refusing_calloc")));
void *realloc(void *old, size_t size) __attribute__((alias("refusing_realloc")));

/* If a program brings its own malloc, as one that is built with an address sanitizer does, that one is found before
   ours, and is a jump to its body. The jump is bent to `ours`, by way of a page near it. The body is answered. */
static void *bent(const char *name, void *ours, void *body) {
    unsigned char *jump = dlsym(RTLD_DEFAULT, name);
    int32_t distance;
    if (jump == NULL || jump == ours || jump[0] != 0xE9)
        return body;
    memcpy(&distance, jump + 1, 4);
    body = jump + 5 + distance;

    long page = sysconf(_SC_PAGESIZE);
    unsigned char *start = jump - (uintptr_t)jump % page, *way = MAP_FAILED;
    for (long away = -(1 << 30); way == MAP_FAILED && away < 1 << 30; away += 1 << 24)
        way = mmap(start + away, page, PROT_READ | PROT_WRITE | PROT_EXEC,
                   MAP_PRIVATE | MAP_ANONYMOUS | MAP_FIXED_NOREPLACE, -1, 0);
    if (way == MAP_FAILED || mprotect(start, 2 * page, PROT_READ | PROT_WRITE | PROT_EXEC) != 0)
        _exit(125);
    memcpy(way, "\x48\xB8", 2); /* mov rax, ours; jmp rax */
    memcpy(way + 2, &ours, 8);
    memcpy(way + 10, "\xFF\xE0", 2);
    distance = way - (jump + 5);
    memcpy(jump + 1, &distance, 4);
    return body;
}

__attribute__((constructor)) static void begin(int words, char **word) {
    const char *at = getenv("REFUSED_AT"), *first = getenv("REFUSED_WORD");
    mark = getenv("REFUSED_MARK");
    if (at == NULL || first == NULL || mark == NULL || words < 2 || strcmp(word[1], first) != 0)
        return;
    real_malloc = bent("malloc", refusing_malloc, real_malloc);
    real_calloc = bent("calloc", refusing_calloc, real_calloc);
    real_realloc = bent("realloc", refusing_realloc, real_realloc);
    left = atol(at) - 1;
}
