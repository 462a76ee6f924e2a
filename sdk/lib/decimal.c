/* The formats of doubles: %f e g a. A double is a whole number and a fraction of at most 1,074 bits; their decimal digits come one after
   another, exactly, by arithmetic of words, and are rounded to nearest, ties to even. They are asked for twice: to see where rounding
   carries to, and to put them. No digits are kept, so there is no limit to a precision. */
#include "sink.h"

#include <string.h>

enum { GROUP = 10000, MOST_WHOLE = 78, MOST_PART = 68, FRACTION_BITS = 52, LEAST_EXPONENT = -1074 };

/* ---- a stream of digits */

struct stream {
    unsigned short whole[MOST_WHOLE]; /* groups of four digits, the last group first */
    unsigned short part[MOST_PART];   /* the fraction, 16 bits each, the first bits first */
    unsigned whole_count, part_count;
    unsigned group, left;             /* the present group, and how many of its digits are left */
    int whole_digits;                 /* before the point; 0 if the number is below 1 */
};

static void append_16_bits(struct stream *s, unsigned bits) {
    for (unsigned j = 0; j < s->whole_count; j++) {
        bits += (unsigned)s->whole[j] << 16;
        s->whole[j] = (unsigned short)(bits % GROUP);
        bits /= GROUP;
    }
    for (; bits; bits /= GROUP)
        s->whole[s->whole_count++] = (unsigned short)(bits % GROUP);
}

/* The 16 bits of mantissa * 2^shift that begin at bit `from`, which may be negative. */
static unsigned bits_at(uint64_t mantissa, int shift, int from) {
    int down = from - shift;
    if (down >= 64 || down <= -16)
        return 0;
    return (unsigned)(down >= 0 ? mantissa >> down : mantissa << -down) & 0xFFFF;
}

static int count_digits(unsigned group) { return group >= 1000 ? 4 : group >= 100 ? 3 : group >= 10 ? 2 : group > 0; }

static void start(struct stream *s, uint64_t mantissa, int shift) {
    s->whole_count = s->part_count = 0;
    int top = shift + FRACTION_BITS + 1;
    for (int from = (top > 0 ? top : 0) / 16 * 16; from >= 0; from -= 16)
        append_16_bits(s, bits_at(mantissa, shift, from));
    for (int from = -16; from > shift - 16; from -= 16)
        s->part[s->part_count++] = (unsigned short)bits_at(mantissa, shift, from);
    s->whole_digits = s->whole_count ? 4 * (int)(s->whole_count - 1) + count_digits(s->whole[s->whole_count - 1]) : 0;
    s->left = (unsigned)(s->whole_digits + 3) % 4 + 1;
    s->group = s->whole_count ? s->whole[--s->whole_count] : (s->left = 0);
}

/* The next four digits of the fraction; what is left is the fraction of 10,000 times as much. */
static unsigned next_part(struct stream *s) {
    unsigned carry = 0;
    for (unsigned j = s->part_count; j > 0; j--) {
        carry += s->part[j - 1] * (unsigned)GROUP;
        s->part[j - 1] = (unsigned short)carry;
        carry >>= 16;
    }
    while (s->part_count > 0 && s->part[s->part_count - 1] == 0)
        s->part_count--;
    return carry;
}

static unsigned next_digit(struct stream *s) {
    static const unsigned short power[] = {1, 10, 100, 1000};
    if (s->left == 0) {
        s->group = s->whole_count ? s->whole[--s->whole_count] : next_part(s);
        s->left = 4;
    }
    unsigned unit = power[--s->left], digit = s->group / unit;
    s->group -= digit * unit;
    return digit;
}

static int is_at_end(const struct stream *s) { return s->group == 0 && s->whole_count == 0 && s->part_count == 0; }

/* ---- rounding */

struct number {
    uint64_t mantissa;
    int shift;
    int exponent;     /* of the first digit that isn't 0, before rounding */
    int count;        /* digits from there on that are put; at most 0 if all are left out */
    int turn;         /* the digit that is raised by 1, after which come zeros; -1 is the one before the first; `count` if none */
    int significant;  /* digits up to the last that isn't 0, after rounding */
};

/* The first digit that isn't 0, and its exponent. */
static unsigned first_digit(struct stream *s, struct number *n) {
    start(s, n->mantissa, n->shift);
    n->exponent = s->whole_digits > 0 ? s->whole_digits - 1 : -1;
    unsigned digit = next_digit(s);
    for (; digit == 0 && !is_at_end(s); digit = next_digit(s))
        n->exponent--;
    return digit;
}

static int rounds_up(struct stream *s, unsigned next, unsigned last) {
    return next > 5 || (next == 5 && (!is_at_end(s) || last % 2));
}

/* Looks where rounding to `count` digits carries to. */
static void round_to(struct number *n, struct stream *s, int count) {
    unsigned digit = first_digit(s, n), last = 0;
    int not_nine = -1;
    n->count = count;
    n->significant = 0;
    for (int j = 0; j < count; j++, digit = next_digit(s)) {
        last = digit;
        if (digit != 9)
            not_nine = j;
        if (digit != 0)
            n->significant = j + 1;
    }
    int up = count >= 0 && rounds_up(s, digit, last);
    n->turn = up ? not_nine : count > 0 ? count : 0;
    if (up)
        n->significant = not_nine + 1;
    if (!up && count <= 0)
        n->turn = 1; /* nothing is put */
}

static int carries_over(const struct number *n) { return n->turn < 0; }

/* ---- putting */

struct text {
    struct number number;
    struct stream stream;
    int next;         /* the index of the next digit, of which the first that isn't 0 is 0 */
    int whole, part;  /* how many digits come before and after the point */
    int first;        /* the index of the first digit that is put: negative if zeros come first */
    int point;        /* whether the point is put if no digits come after it */
    int exponent, has_exponent;
    char letter;
};

static char digit_at(struct text *t, int index) {
    if (index < 0)
        return index == -1 && carries_over(&t->number) ? '1' : '0';
    if (index >= t->number.count)
        return '0';
    unsigned digit = index == 0 ? first_digit(&t->stream, &t->number) : next_digit(&t->stream);
    if (index > t->number.turn)
        return '0';
    return (char)('0' + digit + (index == t->number.turn));
}

static void put_exponent(struct sink *s, const struct text *t) {
    unsigned e = t->exponent < 0 ? (unsigned)-t->exponent : (unsigned)t->exponent;
    put(s, t->letter);
    put(s, t->exponent < 0 ? '-' : '+');
    if (e >= 100)
        put(s, (char)('0' + e / 100));
    put(s, (char)('0' + e / 10 % 10));
    put(s, (char)('0' + e % 10));
}

static void put_text(struct sink *s, void *what) {
    struct text *t = what;
    int index = t->first;
    for (int j = 0; j < t->whole; j++)
        put(s, digit_at(t, index++));
    if (t->part || t->point)
        put(s, '.');
    for (int j = 0; j < t->part; j++)
        put(s, digit_at(t, index++));
    if (t->has_exponent)
        put_exponent(s, t);
}

static unsigned length_of_text(const struct text *t) {
    int exponent = t->exponent < 0 ? -t->exponent : t->exponent;
    return (unsigned)(t->whole + (t->part || t->point) + t->part + (t->has_exponent ? exponent >= 100 ? 5 : 4 : 0));
}

/* ---- %f and %e, of which %g chooses one */

static void lay_out_fixed(struct text *t, int precision) {
    int exponent = t->number.exponent + carries_over(&t->number);
    t->whole = exponent >= 0 ? exponent + 1 : 1;
    t->part = precision;
    t->first = t->number.exponent - (t->whole - 1);
    t->has_exponent = 0;
}

static void lay_out_scientific(struct text *t, int precision) {
    t->whole = 1;
    t->part = precision;
    t->first = carries_over(&t->number) ? -1 : 0;
    t->exponent = t->number.mantissa ? t->number.exponent + carries_over(&t->number) : 0;
    t->has_exponent = 1;
}

static void lay_out_general(struct text *t, struct conversion *c, int precision) {
    round_to(&t->number, &t->stream, precision);
    int exponent = t->number.mantissa ? t->number.exponent + carries_over(&t->number) : 0;
    int significant = t->number.significant + carries_over(&t->number);
    if (significant < 1)
        significant = 1;
    if (c->alternative)
        significant = precision;
    t->letter = c->letter == 'G' ? 'E' : 'e';
    if (exponent < -4 || exponent >= precision)
        lay_out_scientific(t, significant - 1);
    else
        lay_out_fixed(t, significant - 1 > exponent ? significant - 1 - exponent : 0);
}

static void lay_out(struct text *t, struct conversion *c) {
    int precision = c->precision < 0 ? 6 : c->precision;
    t->point = c->alternative != 0;
    t->letter = c->letter;
    if (c->letter == 'f' || c->letter == 'F') {
        first_digit(&t->stream, &t->number);
        round_to(&t->number, &t->stream, t->number.exponent + 1 + precision);
        lay_out_fixed(t, precision);
    } else if (c->letter == 'e' || c->letter == 'E') {
        round_to(&t->number, &t->stream, precision + 1);
        lay_out_scientific(t, precision);
    } else
        lay_out_general(t, c, precision ? precision : 1);
}

/* ---- %a */

struct hexadecimal { uint64_t fraction; int whole, digits, point, exponent; const char *letters; };

static void put_hexadecimal(struct sink *s, void *what) {
    struct hexadecimal *h = what;
    put(s, (char)('0' + h->whole));
    if (h->digits || h->point)
        put(s, '.');
    for (int j = 0; j < h->digits; j++)
        put(s, j < 13 ? h->letters[h->fraction >> (48 - 4 * j) & 15] : '0');
    put(s, h->letters[16]);
    put(s, h->exponent < 0 ? '-' : '+');
    unsigned e = h->exponent < 0 ? (unsigned)-h->exponent : (unsigned)h->exponent;
    for (unsigned unit = e >= 1000 ? 1000 : e >= 100 ? 100 : e >= 10 ? 10 : 1; unit; unit /= 10)
        put(s, (char)('0' + e / unit % 10));
}

static void round_hexadecimal(struct hexadecimal *h) {
    unsigned shift = (unsigned)(52 - 4 * h->digits);
    uint64_t unit = 1ULL << shift, rest = h->fraction & (unit - 1), half = unit >> 1;
    h->fraction -= rest;
    int is_odd = shift < 52 ? (int)(h->fraction >> shift & 1) : h->whole & 1;
    if (rest > half || (rest == half && is_odd))
        h->fraction += unit;
    h->whole += (int)(h->fraction >> 52);
}

static void format_hexadecimal(struct sink *s, struct conversion *c, const struct number *n, char *prefix, unsigned length) {
    int is_normal = (int)(n->mantissa >> FRACTION_BITS);
    struct hexadecimal h = {n->mantissa & ((1ULL << FRACTION_BITS) - 1), is_normal, 13, c->alternative != 0,
                            n->mantissa ? n->shift + FRACTION_BITS : 0, c->letter == 'a' ? "0123456789abcdefp" : "0123456789ABCDEFP"};
    if (c->precision >= 0 && c->precision < 13) {
        h.digits = c->precision;
        round_hexadecimal(&h);
    } else if (c->precision < 0)
        while (h.digits > 0 && (h.fraction >> (52 - 4 * h.digits) & 15) == 0)
            h.digits--;
    else
        h.digits = c->precision;
    unsigned e = h.exponent < 0 ? (unsigned)-h.exponent : (unsigned)h.exponent;
    unsigned all = (unsigned)(1 + (h.digits || h.point) + h.digits + 2) + (e >= 1000 ? 4 : e >= 100 ? 3 : e >= 10 ? 2 : 1);
    prefix[length++] = '0';
    prefix[length++] = c->letter == 'a' ? 'x' : 'X';
    __put_padded(s, c, prefix, length, all, put_hexadecimal, &h);
}

/* ---- all of them */

static void put_letters(struct sink *s, void *what) {
    for (const char *at = what; *at; at++)
        put(s, *at);
}

static void format_without_digits(struct sink *s, struct conversion *c, const char *prefix, unsigned length, int is_number) {
    int is_small = c->letter >= 'a';
    c->zeros = 0;
    __put_padded(s, c, prefix, length, 3, put_letters, is_number ? (is_small ? "inf" : "INF") : is_small ? "nan" : "NAN");
}

void __format_double(struct sink *s, struct conversion *c, uint64_t bits) {
    int exponent = (int)(bits >> FRACTION_BITS) & 0x7FF, is_negative = (int)(bits >> 63);
    uint64_t fraction = bits & ((1ULL << FRACTION_BITS) - 1);
    char prefix[4] = {is_negative ? '-' : c->sign};
    unsigned length = prefix[0] != 0;
    if (exponent == 0x7FF) {
        format_without_digits(s, c, prefix, length, fraction == 0);
        return;
    }
    struct text t = {.number = {.mantissa = fraction | (uint64_t)(exponent != 0) << FRACTION_BITS,
                                .shift = LEAST_EXPONENT + (exponent ? exponent - 1 : 0)}};
    if (c->letter == 'a' || c->letter == 'A') {
        format_hexadecimal(s, c, &t.number, prefix, length);
        return;
    }
    lay_out(&t, c);
    __put_padded(s, c, prefix, length, length_of_text(&t), put_text, &t);
}
