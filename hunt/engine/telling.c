#include "telling.h"

#include "machine.h"

#include <stdio.h>
#include <string.h>

static char *lines;
static size_t length, lines_room;
static bool is_asked;
static double told_at;

static void keep_line(const char *text, size_t added) {
    if (length + added > lines_room) {
        lines_room = 2 * (length + added) + 256;
        lines = more_room(lines, lines_room, 1);
    }
    memcpy(lines + length, text, added);
    length += added;
}

static void say(const char *text) {
    fputs(text, stdout);
    fflush(stdout);
}

void tell_bound(const struct standing *s) {
    char text[256];
    snprintf(text, sizeof text, "bound %u tries %llu states %llu places %u shared %u seconds %.2f\n", s->bound, (unsigned long long)s->tries,
             (unsigned long long)s->states, s->places, s->shared, s->seconds);
    keep_line(text, strlen(text));
    say(text);
}

void ask_for_progress(void) { is_asked = true; }

bool progress_is_due(double now) { return is_asked && now - told_at >= 1; }

void tell_progress(const struct standing *s) {
    char text[256];
    told_at = s->seconds;
    snprintf(text, sizeof text, "progress %u tries %llu states %llu places %u shared %u seconds %.2f left %llu of %llu\n", s->bound,
             (unsigned long long)s->tries, (unsigned long long)s->states, s->places, s->shared, s->seconds, (unsigned long long)s->left,
             (unsigned long long)s->of);
    say(text);
}

const char *lines_told(size_t *count) {
    *count = length;
    return lines;
}

void forget_lines(void) { length = 0; }

void tell_again(const char *text, size_t count) {
    keep_line(text, count);
    fwrite(text, 1, count, stdout);
    fflush(stdout);
}
