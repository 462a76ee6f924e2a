/* Where formatted text goes: to a buffer as far as it has room, and what doesn't fit is counted alone, or taken by `full`. */
#ifndef DELOREAN_SINK_H
#define DELOREAN_SINK_H

#include <stdarg.h>
#include <stdint.h>

struct sink {
    char *begin, *at, *end;
    unsigned earlier;                  /* characters before those in the buffer */
    void (*full)(struct sink *, char); /* takes a character for which there is no room */
};

static inline void put(struct sink *s, char c) {
    if (s->at < s->end)
        *s->at++ = c;
    else
        s->full(s, c);
}

static inline void put_run(struct sink *s, const char *from, unsigned count) {
    char *at = s->at, *end = s->end;
    for (; count > 0 && at < end; count--)
        *at++ = *from++;
    s->at = at;
    for (; count > 0; count--)
        s->full(s, *from++);
}

static inline unsigned length_of(const struct sink *s) { return s->earlier + (unsigned)(s->at - s->begin); }

/* One conversion of a format, for example of %-8.3f. */
struct conversion {
    unsigned left, zeros, alternative; /* flags - 0 # */
    char sign;                         /* what a number begins with that isn't negative: '+', ' ' or 0 */
    int width, precision;              /* precision: -1 if none is given */
    char letter;
};

/* All of printf, without its stream. Gives the length of the whole text. A conversion that isn't known ends the program. */
int __format(struct sink *, const char *format, va_list);
void __format_double(struct sink *, struct conversion *, uint64_t bits);
void __put_padded(struct sink *, struct conversion *, const char *prefix, unsigned prefix_length, unsigned length,
                  void (*body)(struct sink *, void *), void *what);

#endif
