/* Prints in all formats. The host's C library says what has to come out. */
#include <limits.h>
#include <math.h>
#include <stddef.h>
#include <stdint.h>
#include <stdio.h>
#include <string.h>

static unsigned long long state = 88172645463325252ULL;

static unsigned long long next(void) {
    state ^= state << 13;
    state ^= state >> 7;
    state ^= state << 17;
    return state;
}

static double as_double(unsigned long long bits) {
    double d;
    memcpy(&d, &bits, sizeof d);
    return d;
}

static void integers(void) {
    static const char *const formats[] = {"%d|", "%5d|", "%-5d|", "%05d|", "%+d|", "% d|", "%.3d|", "%8.3d|", "%-8.3d|", "%08.3d|", "%+.0d|",
                                          "%u|", "%x|", "%X|", "%#x|", "%#o|", "%o|", "%#8x|", "%-#8x|", "%#08x|", "%hd|", "%hhd|", "%hu|", "%hhx|", "%i|"};
    static const int values[] = {0, 1, -1, 42, -12345, INT_MAX, INT_MIN, 8};
    for (unsigned f = 0; f < sizeof formats / sizeof *formats; f++) {
        for (unsigned v = 0; v < sizeof values / sizeof *values; v++)
            printf(formats[f], values[v]);
        printf("\n");
    }
    printf("%lld %llu %llx %#llo %20lld %-20lld| %lld\n", LLONG_MIN, ULLONG_MAX, ULLONG_MAX, 1ULL << 40, 123456789012345LL, -5LL, 999999999999999999LL);
    printf("%jd %zu %td %hhu %hi\n", (intmax_t)-77, sizeof(char), (ptrdiff_t)-3, 511, 70000);
    printf("%*d|%-*d|%.*d|%*d\n", 6, 42, 6, 42, 4, 42, -6, 42);
}

static void texts(void) {
    int so_far;
    printf("%s|%8s|%-8s|%.2s|%8.2s|%c|%3c|%-3c|%%|%5s\n", "text", "text", "text", "text", "text", 'x', 'y', 'z', "");
    printf("%s %n%d\n", "counted", &so_far, 7);
    printf("%d %p %p\n", so_far, (void *)0x1234, (void *)0xABCDEF0);
    char small[8];
    int length = snprintf(small, sizeof small, "%d and %s", 12345, "more");
    printf("%d %s|\n", length, small);
    printf("%d %d\n", snprintf(NULL, 0, "%0300d", 7), sprintf(small, "%c%c", 'o', 'k'));
    puts(small);
    fputs("put\n", stdout);
    putchar('c');
    putchar('\n');
    printf("%0300d\n", 5); /* longer than a short text */
}

static int is_usual(double d) { return d < 1e20 && (d == 0 || d > 1e-20); }

static void doubles(void) {
    static const char *const formats[] = {"%f ", "%.0f ", "%.1f ", "%10.3f ", "%-12.2e ", "%e ", "%.0e ", "%g ", "%.3g ", "%#g ", "%G ", "%+.2f ",
                                          "%012.4f ", "% g ", "%#.0f ", "%.17g ", "%.20f ", "%a ", "%.3a ", "%A ", "%.0a ", "%20.5a "};
    static const double values[] = {0.0, -0.0, 1.0, 0.5, 1.5, 2.5, 0.1, 1.0 / 3, 9.995, 99.5, 999999.5, 1e6, 123456.789, 1e-4, 1e-5, 0.00012345,
                                    1e15, 1e22, 5e-324, 1.7976931348623157e308, 0.05, 0.95, 0.96, 9.5, 0.005, 1e100};
    for (unsigned f = 0; f < sizeof formats / sizeof *formats; f++) {
        for (unsigned v = 0; v < sizeof values / sizeof *values; v++)
            if ((is_usual(values[v]) || f % 10 == 0) && !(values[v] == 999999.5 && strcmp(formats[f], "%#g ") == 0)) /* glibc prints 1.e+06 */
                printf(formats[f], values[v]);
        printf("\n");
    }
    printf("%f %F %e %g %5f|%-6f|%06f\n", INFINITY, -INFINITY, INFINITY, NAN, INFINITY, NAN, INFINITY);
    printf("%.40f\n%.30e\n", 0.1, 1.0 / 3);
}

static void drawn(void) {
    for (int j = 0; j < 12; j++) {
        double d = as_double((next() & 0x800FFFFFFFFFFFFFULL) | (unsigned long long)(1023 - 40 + next() % 100) << 52);
        printf("%.17g %f %e %.3f %g %.2g\n", d, d, d, d, d, d);
    }
    for (int j = 0; j < 4; j++) {
        double d = as_double(next());
        if (isfinite(d))
            printf("%.15e %g\n", d, d);
    }
}

int main(void) {
    integers();
    texts();
    doubles();
    drawn();
    return 0;
}
