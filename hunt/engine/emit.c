#define _POSIX_C_SOURCE 200809L
#include "emit.h"

#include <stdio.h>
#include <stdlib.h>
#include <string.h>

struct load { uint64_t step; uint32_t address, value; };

/* The chunk that is being written. */
struct chunk {
    uint32_t thread;
    uint64_t steps;
    struct load *loads;
    size_t load_count, load_room;
    uint8_t *held; /* of each step: there is a reservation before it with which an SC will succeed */
    size_t held_room;
    uint64_t reserved_at; /* the step of the last LR, or UINT64_MAX */
};

struct noted { uint32_t thread, index, value; };

static struct run *run;
static FILE *order, *inputs, *dmas, *account;
static char *texts[4];
static size_t text_sizes[4];
static uint32_t commits, commits_of[MOST_THREADS];
static struct noted *interrupts;
static size_t interrupt_count;
static struct chunk chunk;

static void hexadecimal(FILE *f, const uint8_t *bytes, uint32_t length) {
    for (uint32_t j = 0; j < length; j++)
        fprintf(f, "%02X", bytes[j]);
}

static void commit(uint32_t actor, uint64_t size) {
    fprintf(order, "p %u %u %llu\n", commits, actor == DMA ? 63 : actor, (unsigned long long)size);
    fprintf(account, "c %u %u %llu\n", commits, actor == DMA ? 63 : actor, (unsigned long long)size);
    commits++;
    if (actor != DMA)
        commits_of[actor]++;
}

/* ---------------------------------------------------------------- chunks */

/* The chunk's next commit ends here at the latest: it isn't too long, and doesn't end between an LR and an SC that succeeds. */
static uint64_t next_end(uint64_t from) {
    uint32_t longest = run->machine.setup->longest_chunk;
    if (chunk.steps - from <= longest)
        return chunk.steps;
    uint64_t end = from + longest;
    while (chunk.held[end])
        end--;
    return end;
}

static void write_chunk(void) {
    size_t load = 0;
    for (uint64_t from = 0, end; from < chunk.steps; from = end) {
        end = next_end(from);
        commit(chunk.thread, end - from);
        for (; load < chunk.load_count && chunk.loads[load].step < end; load++)
            fprintf(account, "l %08X %08X\n", chunk.loads[load].address, chunk.loads[load].value);
    }
    chunk.steps = chunk.load_count = 0;
    chunk.reserved_at = UINT64_MAX;
}

static void add_load(uint32_t address, uint32_t value) {
    if (chunk.load_count == chunk.load_room) {
        chunk.load_room = chunk.load_room ? 2 * chunk.load_room : 256;
        chunk.loads = more_room(chunk.loads, chunk.load_room, sizeof *chunk.loads);
    }
    chunk.loads[chunk.load_count++] = (struct load){chunk.steps, address, value};
}

static void chunk_step(struct next next) {
    struct machine *m = &run->machine;
    struct thread *t = &m->threads[chunk.thread];
    if (chunk.steps + 1 >= chunk.held_room) {
        chunk.held_room = chunk.held_room ? 2 * chunk.held_room : 256;
        chunk.held = more_room(chunk.held, chunk.held_room, 1);
    }
    chunk.held[chunk.steps] = 0;
    if (next.kind == MEMORY && is_store_conditional(m, t) && has_reserved(m, t, next.address)) {
        for (uint64_t j = chunk.reserved_at + 1; j <= chunk.steps; j++)
            chunk.held[j] = 1;
        chunk.reserved_at = UINT64_MAX;
    }
    if (is_load_reserved(m, t))
        chunk.reserved_at = chunk.steps;
    if (next.kind == LOCAL)
        run_local(m, chunk.thread);
    else {
        struct served load;
        run_access(m, chunk.thread, next.address, &load);
        if (load.loads)
            add_load(load.load_address, load.load_value);
    }
    chunk.steps++;
}

/* ---------------------------------------------------------------- serial steps and others */

static void write_answer(uint32_t thread, const struct answer *a) {
    fprintf(inputs, "n %u %08X ", a->kind, a->result);
    hexadecimal(inputs, a->bytes, a->length);
    fprintf(inputs, "%s %u\n", a->length ? "" : "-", thread); /* the thread is cut off again where the log is made */
}

static void serial_step(uint32_t thread, struct next next) {
    struct served served;
    write_chunk();
    commit(thread, 0);
    serve(&run->machine, thread, next, &served);
    if (served.answered)
        write_answer(thread, &served.answer);
    if (served.loads)
        fprintf(account, "l %08X %08X\n", served.load_address, served.load_value);
    if (served.output_length > 0) {
        fprintf(account, "o %u ", served.channel);
        hexadecimal(account, served.output, served.output_length);
        fprintf(account, "\n");
    }
}

static void take_step(uint32_t thread) {
    struct next next = next_of(&run->machine, &run->machine.threads[thread]);
    if (next.kind == LOCAL || next.kind == MEMORY)
        chunk_step(next);
    else
        serial_step(thread, next);
}

static bool is_reached(const struct turn *turn, uint64_t step) {
    uint32_t pc = run->machine.threads[turn->actor].pc; /* first, since a state takes long */
    if (turn->end == WAITS && pc == turn->target_pc && same_hash(state_of(run), turn->target))
        return true;
    return step == turn->steps;
}

static void write_turn(const struct turn *turn) {
    chunk.thread = turn->actor;
    chunk.reserved_at = UINT64_MAX;
    for (uint64_t step = 0; !is_reached(turn, step); step++)
        take_step(turn->actor);
    write_chunk();
    end_chunk(&run->machine.threads[turn->actor]);
}

static void write_dma(void) {
    struct machine *m = &run->machine;
    uint32_t buffer = m->request_buffer, at = commits;
    uint32_t length = do_request(m);
    commit(DMA, 0);
    fprintf(dmas, "d %u ", at);
    hexadecimal(dmas, m->memory + buffer + 4, length);
    fprintf(dmas, "%s\n", length ? "" : "-");
}

static void write_raise(const struct turn *turn) {
    uint32_t thread = (uint32_t)turn->steps;
    if (turn->actor - RAISE < (int)run->raise_count)
        run->raised |= 1ull << (turn->actor - RAISE);
    interrupts = more_room(interrupts, interrupt_count + 1, sizeof *interrupts);
    interrupts[interrupt_count++] = (struct noted){thread, commits_of[thread], turn->value};
    interrupt(&run->machine, thread, turn->value);
}

/* ---------------------------------------------------------------- texts */

static void write_thread(FILE *f, uint32_t number, const struct thread *t) {
    fprintf(f, "t %u %08X ", number, t->pc);
    if (t->status == LIVE)
        fprintf(f, "live");
    else
        fprintf(f, "%s:%u", t->status == EXITED ? "ended" : "fault", t->code);
    fprintf(f, " %08X %u", t->handler, t->masked);
    for (int r = 1; r < 32; r++)
        fprintf(f, " %08X", t->x[r]);
    fprintf(f, "\n");
    if (t->masked)
        fprintf(f, "h %u %08X %08X %08X\n", number, t->saved_pc, t->saved_a0, t->saved_a1);
}

static void write_state(FILE *f) {
    static const uint8_t zeros[32];
    const struct machine *m = &run->machine;
    for (uint32_t k = 0; k < m->thread_count; k++)
        write_thread(f, k, &m->threads[k]);
    if (m->requested)
        fprintf(f, "d %08X %u\n", m->request_buffer, m->request_length);
    for (uint32_t row = 0; row < m->setup->size; row += 32)
        if (memcmp(m->memory + row, zeros, 32) != 0) {
            fprintf(f, "m %08X ", row);
            hexadecimal(f, m->memory + row, 32);
            fprintf(f, "\n");
        }
    fprintf(f, "end complete %u\n", commits);
}

static int by_moment(const void *p, const void *q) {
    const struct noted *a = p, *b = q;
    if (a->thread != b->thread)
        return a->thread < b->thread ? -1 : 1;
    return a->index < b->index ? -1 : a->index > b->index;
}

static void begin_texts(void) {
    FILE **files[] = {&order, &inputs, &dmas, &account};
    for (int j = 0; j < 4; j++) {
        *files[j] = open_memstream(&texts[j], &text_sizes[j]);
        if (*files[j] == NULL)
            fail("out of memory");
    }
}

static void put_text(const char *name, int which) {
    printf("text %s %zu\n", name, text_sizes[which]);
    fwrite(texts[which], 1, text_sizes[which], stdout);
    free(texts[which]);
}

static void put_texts(void) {
    FILE *files[] = {order, inputs, dmas, account};
    for (int j = 0; j < 4; j++)
        if (fclose(files[j]) != 0)
            fail("out of memory");
    put_text("order", 0);
    if (interrupt_count > 0)
        qsort(interrupts, interrupt_count, sizeof *interrupts, by_moment);
    for (size_t j = 0; j < interrupt_count; j++)
        printf("interrupt %u %u %08X\n", interrupts[j].thread, interrupts[j].index, interrupts[j].value);
    put_text("inputs", 1);
    put_text("dmas", 2);
    put_text("account", 3);
}

void emit(struct run *r, const struct turn *turns, size_t count) {
    run = r;
    start_run(run); /* and nobody is current, so each state is looked at whole */
    commits = 0;
    interrupt_count = 0;
    memset(commits_of, 0, sizeof commits_of);
    begin_texts();
    for (size_t j = 0; j < count; j++) {
        if (turns[j].actor == DMA)
            write_dma();
        else if (turns[j].actor >= RAISE)
            write_raise(&turns[j]);
        else
            write_turn(&turns[j]);
    }
    write_state(account);
    put_texts();
}

/* ---------------------------------------------------------------- loops */

static struct hash state_without_reservation(uint32_t thread) {
    struct thread *t = &run->machine.threads[thread];
    uint32_t reservation = t->reservation;
    t->reservation = NO_RESERVATION;
    struct hash state = state_of(run);
    t->reservation = reservation;
    return state;
}

static void tell_size(uint64_t *size) {
    if (*size > 0)
        printf(" %llu", (unsigned long long)*size);
    *size = 0;
}

/* A chunk ends after each store, so that a walk can show what memory is then. It ends too before it is too long, and early, so that an LR
   mostly isn't parted from its SC. */
static bool ends_chunk(const struct thread *t, bool stores, uint64_t size) {
    uint32_t longest = run->machine.setup->longest_chunk;
    return stores || size == longest || (size >= longest / 2 && t->reservation == NO_RESERVATION);
}

/* A thread's loop from the end on, as sizes of commits with their answers. */
static void emit_loop(uint32_t thread) {
    enum { LONGEST_LOOP = 1000000 };
    struct machine *m = &run->machine;
    struct thread *t = &m->threads[thread];
    struct hash from = state_of(run);
    uint32_t from_pc = t->pc;
    uint64_t size = 0, steps = 0;
    printf("loop %u", thread);
    do {
        struct next next = next_of(m, t);
        bool stores = next.kind == MEMORY && is_store(m, t);
        if (next.kind == LOCAL)
            run_local(m, thread);
        else if (next.kind == MEMORY)
            run_access(m, thread, next.address, NULL);
        else {
            struct served served;
            tell_size(&size);
            serve(m, thread, next, &served);
            printf(" 0");
            if (served.answered)
                printf(":%u:%08X", served.answer.kind, served.answer.result);
            continue;
        }
        size++;
        if (ends_chunk(t, stores, size)) {
            tell_size(&size);
            end_chunk(t);
        }
    } while ((t->pc != from_pc || !same_hash(state_without_reservation(thread), from)) && ++steps < LONGEST_LOOP);
    tell_size(&size);
    printf("%s\n", steps == LONGEST_LOOP ? " none" : "");
    end_chunk(t);
}

void emit_loops(struct run *r) {
    run = r;
    for (uint32_t k = 0; k < run->machine.thread_count; k++)
        if (run->machine.threads[k].status == LIVE)
            emit_loop(k);
}
