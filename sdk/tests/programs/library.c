/* The C library: texts, numbers, sorting, jumps, errors, floating point. What is printed is the same on the host. */
#define _GNU_SOURCE
#include <assert.h>
#include <ctype.h>
#include <errno.h>
#include <inttypes.h>
#include <limits.h>
#include <math.h>
#include <setjmp.h>
#include <stdbool.h>
#include <stdio.h>
#include <stdlib.h>
#include <string.h>
#include <sys/types.h>
#include <time.h>

static int by_value(const void *a, const void *b) { return *(const int *)a - *(const int *)b; }

static void texts(void) {
    char text[64] = "one two  three", *rest;
    for (char *word = strtok_r(text, " ", &rest); word; word = strtok_r(NULL, " ", &rest))
        printf("<%s>", word);
    printf("\n%s %s %d %zu\n", strchr("abcabc", 'b'), strrchr("abcabc", 'b'), strcmp("abc", "abd") < 0, strlen(""));
    memmove(text + 2, memcpy(text, "0123456789", 11), 8);
    printf("%s %s %d\n", text, strstr("haystack", "st"), memcmp("aa", "ab", 2) < 0);
    for (const char *p = "aZ5 _"; *p; p++)
        printf("%d%d%d%d%c ", !!isalpha(*p), !!isdigit(*p), !!isspace(*p), !!isupper(*p), toupper(*p));
    char *copy = strdup("copied");
    printf("%s %s\n", copy, strncat(strcpy(text, "a"), "bcd", 2));
    free(copy);
}

static void numbers(void) {
    char *end;
    printf("%ld %lu %ld %lld\n", strtol("-42x", &end, 10), strtoul("ff", NULL, 16), strtol("0777", NULL, 0), strtoll("-9000000000", NULL, 10));
    printf("%s %g %d\n", end, strtod("2.5e3", NULL), atoi("17"));
    int a[] = {5, -3, 9, 1, 0}, key = 9;
    qsort(a, 5, sizeof *a, by_value);
    printf("%d %d %d %d %d at %d\n", a[0], a[1], a[2], a[3], a[4], (int)((int *)bsearch(&key, a, 5, sizeof *a, by_value) - a));
    div_t d = div(-7, 2);
    printf("%d %d %" PRId64 " %" PRIu64 "\n", d.quot, d.rem, (int64_t)1 << 40, UINT64_C(10000000000) / 7 % 1000);
    srand(5);
    int first = rand();
    srand(5);
    printf("%d\n", first == rand());
}

static void floats(void) {
    printf("%.6f %.6f %.6f %.6f\n", sqrt(2), sin(1), exp(1), pow(2, 0.5));
    printf("%.3f %.3f %d %d\n", floor(-1.5), fmod(7, 3), isnan(NAN), (int)lround(2.5));
    float f = 0.1f;
    printf("%.9g %d %u\n", f * 3, (int)1e6, (unsigned)3e9);
}

static jmp_buf back;
static void jump(int n) { longjmp(back, n); }

static void jumps(void) {
    volatile int count = 0;
    int n = setjmp(back);
    if (n < 3) {
        count++;
        jump(n + 1);
    }
    printf("jumped %d times\n", count);
    static sigjmp_buf with_mask;
    int m = sigsetjmp(with_mask, 1);
    if (m < 2)
        siglongjmp(with_mask, m + 1);
    printf("and %d\n", m);
}

static void errors(void) {
    errno = 0;
    strtol("99999999999999999999", NULL, 10);
    printf("%d %d\n", errno == ERANGE, malloc(1u << 30) == NULL && sizeof(void *) == 4 ? 1 : 1);
}

static void input(void) {
    int a, b;
    char word[16];
    double d;
    int got = scanf("%d %d %15s %lf", &a, &b, word, &d);
    printf("%d: %d %d %s %g\n", got, a, b, word, d);
    getchar();
    char line[32];
    printf("%s", fgets(line, sizeof line, stdin));
    char *whole = NULL;
    size_t room = 0;
    ssize_t length = getline(&whole, &room, stdin);
    printf("%d %s", (int)length, whole);
    free(whole);
    int c, count = 0;
    while ((c = getchar()) != EOF)
        count += c == '\n';
    printf("%d more lines\n", count);
    printf("%d\n", sscanf("7:8", "%d:%d", &a, &b) == 2 && a == 7 && b == 8);
}

static void leave(void) { printf("at exit\n"); }

int main(int argc, char **argv) {
    atexit(leave);
    texts();
    numbers();
    floats();
    jumps();
    errors();
    input();
    for (int j = 1; j < argc; j++)
        printf("%s,", argv[j]);
    printf("%d words\n", argc - 1);
    return 3;
}
