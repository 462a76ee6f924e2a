/* The formats of printf: %d i u x X o b c s p n %, with flags, width, precision and all lengths; decimal.c has those of doubles. */
#include "program.h"
#include "sink.h"

#include <stddef.h>
#include <string.h>

enum length { CHAR, SHORT, INT, LONG, LONG_LONG, LONG_DOUBLE }; /* size_t and the like are an int's size, as is long */

/* ---- numbers */

struct digits { const char *at; unsigned count, zeros; };

static char *digits_of_word(char *at, unsigned value, unsigned base, const char *letters) {
    for (; value; value /= base)
        *--at = letters[value % base];
    return at;
}

/* Divides by a base of at most 2^16, 16 bits at a time, since the processor divides words alone. */
static unsigned divide(uint64_t *value, unsigned base) {
    unsigned high = (unsigned)(*value >> 32), low = (unsigned)*value;
    unsigned middle = (high % base) << 16 | low >> 16, rest = (middle % base) << 16 | (low & 0xFFFF);
    *value = (uint64_t)(high / base) << 32 | (middle / base << 16 | rest / base);
    return rest % base;
}

static char *digits_of(char *at, uint64_t value, unsigned base, const char *letters) {
    while (value >> 32)
        *--at = letters[divide(&value, base)];
    return digits_of_word(at, (unsigned)value, base, letters);
}

static void put_many(struct sink *s, char c, int count) {
    for (; count > 0; count--)
        put(s, c);
}

static void put_digits(struct sink *s, void *what) {
    struct digits *d = what;
    put_many(s, '0', (int)d->zeros);
    put_run(s, d->at, d->count);
}

/* A prefix, as a sign, and a body of a known length, within the width. */
void __put_padded(struct sink *s, struct conversion *c, const char *prefix, unsigned prefix_length, unsigned length,
                  void (*body)(struct sink *, void *), void *what) {
    int padding = c->width - (int)(prefix_length + length);
    if (!c->left && !c->zeros)
        put_many(s, ' ', padding);
    put_run(s, prefix, prefix_length);
    if (!c->left && c->zeros)
        put_many(s, '0', padding);
    body(s, what);
    if (c->left)
        put_many(s, ' ', padding);
}

static unsigned base_of(char letter) {
    return letter == 'x' || letter == 'X' || letter == 'p' ? 16 : letter == 'o' ? 8 : letter == 'b' ? 2 : 10;
}

static unsigned prefix_of(char prefix[2], const struct conversion *c, int negative, int is_zero) {
    if (c->letter == 'd' && (negative || c->sign)) {
        prefix[0] = negative ? '-' : c->sign;
        return 1;
    }
    if (c->letter != 'p' && (!c->alternative || is_zero || (c->letter != 'x' && c->letter != 'X' && c->letter != 'b')))
        return 0;
    prefix[0] = '0';
    prefix[1] = c->letter == 'p' ? 'x' : c->letter;
    return 2;
}

static void format_number(struct sink *s, struct conversion *c, uint64_t value, int negative) {
    char text[64], prefix[2], *end = text + sizeof text;
    unsigned length = prefix_of(prefix, c, negative, value == 0), base = base_of(c->letter);
    struct digits d = {digits_of(end, value, base, c->letter == 'X' ? "0123456789ABCDEF" : "0123456789abcdef"), 0, 0};
    d.count = (unsigned)(end - d.at);
    unsigned least = c->precision < 0 ? 1 : (unsigned)c->precision;
    if (c->letter == 'o' && c->alternative && least <= d.count)
        least = d.count + 1;
    d.zeros = least > d.count ? least - d.count : 0;
    c->zeros = c->zeros && c->precision < 0;
    __put_padded(s, c, prefix, length, d.zeros + d.count, put_digits, &d);
}

/* ---- texts */

static void format_text(struct sink *s, struct conversion *c, const char *text) {
    struct digits d = {text ? text : "(null)", 0, 0};
    d.count = c->precision < 0 ? strlen(d.at) : strnlen(d.at, (size_t)c->precision);
    c->zeros = 0;
    __put_padded(s, c, "", 0, d.count, put_digits, &d);
}

static void format_char(struct sink *s, struct conversion *c, char one) {
    struct digits d = {&one, 1, 0};
    c->zeros = 0;
    __put_padded(s, c, "", 0, 1, put_digits, &d);
}

/* ---- reading a conversion */

static const char *read_flags(const char *f, struct conversion *c) {
    for (;; f++)
        switch (*f) {
        case '-': c->left = 1; break;
        case '0': c->zeros = 1; break;
        case '#': c->alternative = 1; break;
        case '+': c->sign = '+'; break;
        case ' ': c->sign = c->sign ? c->sign : ' '; break;
        default: return f;
        }
}

static const char *read_number(const char *f, int *number, va_list *list) {
    if (*f == '*') {
        *number = va_arg(*list, int);
        return f + 1;
    }
    for (*number = 0; *f >= '0' && *f <= '9'; f++)
        *number = 10 * *number + (*f - '0');
    return f;
}

static const char *read_size(const char *f, struct conversion *c, va_list *list) {
    if (*f != '.' && *f < '0' && *f != '*')
        return f;
    f = read_number(f, &c->width, list);
    if (c->width < 0) {
        c->left = 1;
        c->width = -c->width;
    }
    return *f == '.' ? read_number(f + 1, &c->precision, list) : f;
}

static const char *read_length(const char *f, enum length *length) {
    switch (*f) {
    case 'h':
        *length = f[1] == 'h' ? CHAR : SHORT;
        return f + 1 + (f[1] == 'h');
    case 'l':
        *length = f[1] == 'l' ? LONG_LONG : LONG;
        return f + 1 + (f[1] == 'l');
    case 'j': *length = LONG_LONG; return f + 1;
    case 'L': *length = LONG_DOUBLE; return f + 1;
    case 'z': case 't': return f + 1;
    default: return f;
    }
}

/* ---- doing it */

static void format_signed(struct sink *s, struct conversion *c, enum length length, va_list *list) {
    int64_t value = length == LONG_LONG ? va_arg(*list, int64_t) : va_arg(*list, int);
    if (length == CHAR)
        value = (signed char)value;
    if (length == SHORT)
        value = (short)value;
    c->letter = 'd';
    format_number(s, c, value < 0 ? -(uint64_t)value : (uint64_t)value, value < 0);
}

static void format_unsigned(struct sink *s, struct conversion *c, enum length length, va_list *list) {
    uint64_t value = length == LONG_LONG ? va_arg(*list, uint64_t) : va_arg(*list, unsigned);
    if (length == CHAR)
        value = (unsigned char)value;
    if (length == SHORT)
        value = (unsigned short)value;
    format_number(s, c, value, 0);
}

static uint64_t bits_of(enum length length, va_list *list) {
    double value = length == LONG_DOUBLE ? (double)va_arg(*list, long double) : va_arg(*list, double);
    uint64_t bits;
    memcpy(&bits, &value, sizeof bits);
    return bits;
}

static void store_length(struct sink *s, enum length length, va_list *list) {
    void *to = va_arg(*list, void *);
    unsigned count = length_of(s);
    uint64_t all = count;
    memcpy(to, &all, length == CHAR ? 1 : length == SHORT ? 2 : length == LONG_LONG ? 8 : 4);
}

/* Gives 0 if there is no such conversion. Wide characters have none. */
static int format_one(struct sink *s, struct conversion *c, enum length length, va_list *list) {
    if (length == LONG && (c->letter == 's' || c->letter == 'c'))
        return 0;
    switch (c->letter) {
    case 'd': case 'i': format_signed(s, c, length, list); break;
    case 'u': case 'x': case 'X': case 'o': case 'b': format_unsigned(s, c, length, list); break;
    case 'p': format_unsigned(s, c, INT, list); break;
    case 'c': format_char(s, c, (char)va_arg(*list, int)); break;
    case 's': format_text(s, c, va_arg(*list, const char *)); break;
    case 'n': store_length(s, length, list); break;
    case '%': put(s, '%'); break;
    case 'f': case 'F': case 'e': case 'E': case 'g': case 'G': case 'a': case 'A':
        __format_double(s, c, bits_of(length, list));
        break;
    default: return 0;
    }
    return 1;
}

static const char *read_conversion(const char *f, struct conversion *c, enum length *length, va_list *list) {
    *c = (struct conversion){.precision = -1};
    *length = INT;
    f = read_length(read_size(read_flags(f, c), c, list), length);
    c->letter = *f;
    return f + 1;
}

/* The characters up to the next conversion; most formats have more of them than of anything else. */
static const char *put_literal(struct sink *s, const char *f) {
    char *at = s->at, *end = s->end;
    for (; *f && *f != '%' && at < end; f++)
        *at++ = *f;
    s->at = at;
    for (; *f && *f != '%'; f++)
        s->full(s, *f);
    return f;
}

int __format(struct sink *s, const char *f, va_list given) {
    va_list list;
    va_copy(list, given);
    while (*(f = put_literal(s, f))) {
        struct conversion c;
        enum length length;
        const char *begin = f;
        f = read_conversion(f + 1, &c, &length, &list);
        if (!format_one(s, &c, length, &list))
            __fail("printf: there is no such conversion: ", begin);
    }
    va_end(list);
    return (int)length_of(s);
}
