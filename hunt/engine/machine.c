#include "inside.h"
#include "segments.h"
#include "sharing.h"

#include <stdio.h>
#include <stdlib.h>

void fail(const char *why) {
    printf("failed %s\n", why);
    fflush(stdout);
    exit(3);
}

void *room(size_t count, size_t size) {
    void *got = calloc(count ? count : 1, size);
    if (got == NULL)
        fail("out of memory");
    return got;
}

void *more_room(void *old, size_t count, size_t size) {
    void *got = realloc(old, count * size);
    if (got == NULL)
        fail("out of memory");
    return got;
}

/* ---------------------------------------------------------------- memory */

void happened(struct machine *m) { m->events++; }

static void add_to_journal(struct machine *m, struct stored stored) {
    if (m->journal_length == m->journal_room) {
        m->journal_room = m->journal_room ? 2 * m->journal_room : 1024;
        m->journal = more_room(m->journal, m->journal_room, sizeof *m->journal);
    }
    m->journal[m->journal_length++] = stored;
}

/* Whoever stores has noted it, so an instruction that is changed isn't plain any more, also if it comes back. */
void put_word(struct machine *m, uint32_t address, uint32_t word) {
    uint32_t old = word_at(m, address);
    if (touchers_of(address).fetched)
        m->code[address / 4].plain = 0;
    if (old == word)
        return;
    add_to_journal(m, (struct stored){address & ~3u, old});
    memcpy(m->memory + (address & ~3u), &word, 4);
    struct hash before = mixed(address & ~3u, old), after = mixed(address & ~3u, word);
    m->memory_hash.a += after.a - before.a;
    m->memory_hash.b += after.b - before.b;
    m->stores++;
}

void put_bytes(struct machine *m, uint32_t context, uint32_t address, const uint8_t *bytes, uint32_t length) {
    for (uint32_t j = 0; j < length; j++) {
        uint32_t at = address + j, shift = at % 4 * 8;
        note_store(context, at);
        put_word(m, at, (word_at(m, at) & ~(0xFFu << shift)) | (uint32_t)bytes[j] << shift);
    }
}

/* ---------------------------------------------------------------- start */

static void seed_random(struct machine *m) {
    uint64_t step = 2 << 1 | 1; /* stream 2 */
    m->devices.random = (m->setup->seed + step) * 6364136223846793005u + step;
}

void start_machine(struct machine *m, struct setup *setup) {
    memset(m, 0, sizeof *m);
    m->setup = setup;
    m->memory = room(setup->size, 1);
    memcpy(m->memory, setup->image, setup->size);
    m->code = room(setup->size / 4, sizeof *m->code);
    start_segments(setup->size);
    reset_machine(m);
}

void reset_machine(struct machine *m) {
    while (m->journal_length > 0) {
        struct stored *s = &m->journal[--m->journal_length];
        memcpy(m->memory + s->address, &s->old, 4);
    }
    m->memory_hash = (struct hash){0, 0};
    memset(&m->devices, 0, sizeof m->devices);
    seed_random(m);
    memset(&m->threads[0], 0, sizeof m->threads[0]);
    m->threads[0].pc = m->setup->entry;
    m->threads[0].reservation = NO_RESERVATION;
    m->thread_count = 1;
    m->requested = false;
    m->request_buffer = m->request_length = 0;
    m->stores = m->events = m->time = 0;
    m->dmas_done = 0;
    m->ended = 0;
    m->answers_taken = (struct hash){0, 0};
    for (size_t j = 0; j < m->setup->answer_count; j++)
        m->setup->answers[j].used = 0;
    forget_segments();
}

/* ---------------------------------------------------------------- threads */

void end_chunk(struct thread *t) { t->reservation = NO_RESERVATION; }

bool can_interrupt(const struct thread *t) { return t->status == LIVE && t->handler != 0 && !t->masked; }

void interrupt(struct machine *m, uint32_t number, uint32_t value) {
    struct thread *t = &m->threads[number];
    t->saved_pc = t->pc;
    t->saved_a0 = t->x[10];
    t->saved_a1 = t->x[11];
    t->x[10] = value;
    t->pc = t->handler;
    t->masked = 1;
    happened(m);
}
