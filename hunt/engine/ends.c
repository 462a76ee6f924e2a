#include "ends.h"

#include "crew.h"

#include <stdio.h>
#include <stdlib.h>
#include <string.h>

/* text: the bytes, and of each thread its status and code. */
struct end { uint32_t forced; char *text; };

static uint32_t first, size;
static struct end *ends;
static size_t count, ends_room;
static atomic_flag lock = ATOMIC_FLAG_INIT;

void collect_ends(uint32_t from, uint32_t length) {
    first = from;
    size = length;
}

void forget_ends(void) {
    while (count > 0)
        free(ends[--count].text);
}

static char *text_of(const struct machine *m) {
    char *text = room(2 * size + 16 * m->thread_count + 1, 1), *at = text;
    for (uint32_t j = 0; j < size; j++)
        at += sprintf(at, "%02X", m->memory[first + j]);
    for (uint32_t k = 0; k < m->thread_count; k++)
        at += sprintf(at, " %u:%u", m->threads[k].status, m->threads[k].code);
    return text;
}

/* The text is kept, or is there already and freed. */
static void add_end(char *text, uint32_t forced) {
    for (size_t j = 0; j < count; j++)
        if (strcmp(ends[j].text, text) == 0) {
            free(text);
            return;
        }
    if (count == ends_room) {
        ends_room = ends_room ? 2 * ends_room : 64;
        ends = more_room(ends, ends_room, sizeof *ends);
    }
    ends[count++] = (struct end){forced, text};
}

void note_end(const struct machine *m, uint32_t forced) {
    if (size == 0)
        return;
    char *text = text_of(m);
    spin_lock(&lock);
    add_end(text, forced);
    spin_unlock(&lock);
}

size_t end_count(void) { return count; }

const char *end_text(size_t number, uint32_t *forced) {
    *forced = ends[number].forced;
    return ends[number].text;
}

void put_end(const char *text, uint32_t forced) {
    char *copy = room(strlen(text) + 1, 1);
    strcpy(copy, text);
    add_end(copy, forced);
}

void tell_ends(void) {
    for (size_t j = 0; j < count; j++)
        printf("met %u %s\n", ends[j].forced, ends[j].text);
}
