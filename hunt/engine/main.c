/* Searches orders of a program's commits, or plays one that it is led by. It is told on standard input what to do, a line at a
   time, by the programs beside this folder, and answers on standard output. */
#define _POSIX_C_SOURCE 200809L
#include "chance.h"
#include "condition.h"
#include "crew.h"
#include "emit.h"
#include "ends.h"
#include "guide.h"
#include "kept.h"
#include "leaf.h"
#include "priorities.h"
#include "run.h"
#include "saved.h"
#include "saving.h"
#include "scouts.h"
#include "search.h"
#include "segments.h"
#include "sharing.h"
#include "telling.h"

#include <signal.h>
#include <stdio.h>
#include <stdlib.h>
#include <string.h>

#ifdef __GLIBC__
#include <limits.h>
#include <malloc.h>
#endif

static struct setup setup = {.most_threads = 15, .tick = 64, .longest_chunk = 4096, .input = (uint8_t *)""};
static struct condition bad;
static struct run run = {.turn_limit = 10000, .step_limit = 1000000};
static struct turn *guide;
static size_t guide_count;

static uint8_t *file_bytes(const char *name, size_t *length) {
    FILE *f = fopen(name, "rb");
    if (f == NULL || fseek(f, 0, SEEK_END) != 0)
        fail("a file could not be read");
    *length = (size_t)ftell(f);
    rewind(f);
    uint8_t *bytes = room(*length, 1);
    if (fread(bytes, 1, *length, f) != *length)
        fail("a file could not be read");
    fclose(f);
    return bytes;
}

/* The bytes of pairs of hexadecimal digits; - is none. */
static uint8_t *bytes_of(const char *text, uint32_t *length) {
    *length = text[0] == '-' ? 0 : (uint32_t)strlen(text) / 2;
    uint8_t *bytes = room(*length, 1);
    for (uint32_t j = 0; j < *length; j++) {
        unsigned v;
        if (sscanf(text + 2 * j, "%2x", &v) != 1)
            fail("no bytes");
        bytes[j] = (uint8_t)v;
    }
    return bytes;
}

static char *copy_of(const char *text) { return strcpy(room(strlen(text) + 1, 1), text); }

static char *rest_of(char *line) { return line[strcspn(line, " ")] ? line + strcspn(line, " ") + 1 : line + strlen(line); }

static void take_memory(char *rest) {
    int used = 0;
    size_t length;
    if (sscanf(rest, "%u %u %n", &setup.size, &setup.entry, &used) != 2)
        fail("no memory");
    setup.image = file_bytes(rest + used, &length);
    if (length != setup.size)
        fail("a memory of another size");
}

static void take_input(char *rest) {
    size_t length;
    setup.input = file_bytes(rest, &length);
    setup.input_length = length < 1 << 24 ? (uint32_t)length : 1 << 24;
}

static void add_answer(struct answer **list, size_t *count, struct answer answer) {
    *list = more_room(*list, *count + 1, sizeof **list);
    (*list)[(*count)++] = answer;
}

static void take_answer(char *rest) {
    unsigned thread, kind, result;
    uint32_t length;
    static char text[2 * LONGEST + 2];
    if (sscanf(rest, "%u %u %x %8193s", &thread, &kind, &result, text) != 4)
        fail("no answer");
    struct answer a = {.kind = (uint8_t)kind, .thread = (uint8_t)thread, .result = result};
    a.bytes = bytes_of(text, &length);
    a.length = (uint16_t)length;
    add_answer(&setup.answers, &setup.answer_count, a);
}

static void take_dma(char *rest) {
    struct answer a = {.kind = 0};
    uint32_t length;
    a.bytes = bytes_of(rest, &length);
    a.length = (uint16_t)length;
    add_answer(&setup.dmas, &setup.dma_count, a);
}

static void take_atom(char *rest) {
    unsigned kind, comparison, begins;
    static char text[1 << 16];
    struct atom a = {.thread = 0};
    if (sscanf(rest, "%u %u %u %u %u %u %65535s", &begins, &kind, &comparison, &a.thread, &a.value, &a.address, text) != 7)
        fail("no atom");
    a.kind = kind;
    a.comparison = comparison;
    a.begins_case = begins;
    a.bytes = bytes_of(text, &a.length);
    bad.atoms = more_room(bad.atoms, bad.count + 1, sizeof a);
    bad.atoms[bad.count++] = a;
    if (a.kind == OVERRUNS)
        memcpy(&run.stacks, a.bytes, a.length < sizeof run.stacks ? a.length : sizeof run.stacks);
    if (a.kind == WORD_IS_EVER) {
        run.watched = &bad;
        run.all_places = true;
    }
}

static void take_raise(char *rest) {
    struct raise raise;
    if (run.raise_count == MOST_RAISES || sscanf(rest, "%u %x", &raise.thread, &raise.value) != 2)
        fail("no interrupt");
    run.raises[run.raise_count++] = raise;
}

static void take_ends(char *rest) {
    unsigned from, length;
    if (sscanf(rest, "%u %u", &from, &length) != 2 || from > setup.size || length > setup.size - from)
        fail("no such words");
    collect_ends(from, length);
}

static void take_acquire(char *rest) {
    unsigned pc;
    if (sscanf(rest, "%x", &pc) != 1 || pc >= setup.size)
        fail("no such instruction");
    if (setup.acquires == NULL)
        setup.acquires = room(setup.size / 4, sizeof *setup.acquires);
    setup.acquires[pc / 4] = true;
}

static void take_save(char *rest) {
    int used = 0;
    double every;
    if (sscanf(rest, "%lf %n", &every, &used) != 1)
        fail("no file to save the search in");
    save_in(copy_of(rest + used), every);
}

static void take_turn(char *rest) {
    unsigned actor, end;
    unsigned long long steps;
    struct turn turn = {.value = 0};
    if (sscanf(rest, "%u %llu %x %u", &actor, &steps, &turn.value, &end) != 4)
        fail("no turn");
    turn.actor = (uint8_t)actor;
    turn.end = end;
    turn.steps = steps;
    guide = more_room(guide, guide_count + 1, sizeof turn);
    guide[guide_count++] = turn;
}

static void ready(void) {
    if (run.machine.setup != NULL)
        return;
    start_sharing(setup.size);
    start_machine(&run.machine, &setup);
    for (size_t j = 0; j < bad.count; j++) {
        if (bad.atoms[j].kind != WORD_IS_EVER)
            continue;
        always_share(bad.atoms[j].address);
        make_place(bad.atoms[j].address); /* each access to it comes at a place, so each value that it has is seen */
    }
}

static void tell_turns(void) {
    static const char *const ends[] = {"forced", "stopped", "waits", "spent"};
    for (size_t j = 0; j < run.turn_count; j++) {
        const struct turn *t = &run.turns[j];
        printf("turn %u %llu %08X %s\n", t->actor, (unsigned long long)t->steps, t->value, ends[t->end]);
    }
}

/* The run as it stands, told in full. */
static void tell_run(void) {
    static const char *const leaves[] = {"ended", "waits", "repeats"};
    bool goes_on = false;
    for (uint32_t k = 0; k < run.machine.thread_count; k++)
        goes_on = goes_on || is_enabled(&run, k);
    printf("leaf %s\n", goes_on ? "goes-on" : leaves[leaf_of(&run)]);
    tell_turns();
    emit(&run, run.turns, run.turn_count);
    printf("loops %u\n", goes_on ? 0 : live_count(&run));
    if (!goes_on)
        emit_loops(&run);
}

static void do_search(char *rest) {
    static const char *const finishes[] = {"found", "bound", "all", "tries", "seconds", "states", "stopped"};
    struct limits limits;
    struct tally tally = {.tries = 0};
    unsigned long long tries, states;
    if (sscanf(rest, "%u %llu %llu %lf", &limits.switches, &tries, &states, &limits.seconds) != 4)
        fail("no limits");
    limits.tries = tries;
    limits.states = states;
    ready();
    enum finish finish = search(&run, &bad, &limits, &tally);
    tell_ends();
    printf("tally %llu %llu %llu %llu %u %u %u\n", (unsigned long long)tally.tries, (unsigned long long)tally.ended,
           (unsigned long long)(tally.waited + tally.repeated), (unsigned long long)tally.limited,
           tally.most_places, tally.bound, tally.restarts);
    run.minds_marks = false;
    learn(false);
    if (finish == FOUND)
        tell_run();
    printf("end %s\n", finishes[finish]);
}

static void do_chance(const char *rest) {
    static const char *const finishes[] = {[FOUND] = "found", [OUT_OF_TRIES] = "tries", [OUT_OF_TIME] = "seconds",
                                           [INTERRUPTED] = "stopped"};
    struct chance chance;
    struct chances had = {.tries = 0};
    unsigned strategy;
    unsigned long long seed, tries;
    if (sscanf(rest, "%u %u %llu %llu %lf", &strategy, &chance.depth, &seed, &tries, &chance.seconds) != 5 || strategy > WALKS
        || chance.depth < 1 || chance.depth > MOST_DEPTH)
        fail("no strategy");
    chance.strategy = strategy;
    chance.seed = seed;
    chance.tries = tries;
    ready();
    enum finish finish = try_by_chance(&run, &bad, &chance, &had);
    tell_ends();
    printf("chances %llu %llu %u %llu %llu %llu %llu %llu\n", (unsigned long long)had.tries, (unsigned long long)had.alike, had.actors,
           (unsigned long long)had.points, (unsigned long long)had.spent, (unsigned long long)had.limited,
           (unsigned long long)had.ended, (unsigned long long)had.hung);
    run.minds_marks = false;
    learn(false);
    if (finish == FOUND)
        tell_run();
    printf("end %s\n", finishes[finish]);
}

static void do_guide(const char *rest, bool in_full) {
    static const char *const outcomes[] = {"good", "bad", "limited"};
    unsigned manner, until;
    if (sscanf(rest, "%u %u", &manner, &until) != 2)
        fail("no manner");
    ready();
    struct guide how = {.turns = guide, .count = guide_count, .manner = manner, .until = until};
    printf("outcome %s\n", outcomes[guided(&run, &how, &bad)]);
    if (in_full)
        tell_run();
    else
        tell_turns();
    printf("end guide\n");
    guide_count = 0;
}

static void do_without_idle_steps(void) {
    ready();
    without_idle_steps(&run, guide, guide_count);
    tell_turns();
    printf("end turns\n");
    guide_count = 0;
}

static void take_line(char *line) {
    char *rest = rest_of(line);
    line[strcspn(line, " ")] = 0;
    if (strcmp(line, "memory") == 0) take_memory(rest);
    else if (strcmp(line, "threads") == 0) setup.most_threads = (uint32_t)strtoul(rest, NULL, 10);
    else if (strcmp(line, "standard") == 0) setup.longest_chunk = (uint32_t)strtoul(rest, NULL, 10);
    else if (strcmp(line, "seed") == 0) setup.seed = strtoull(rest, NULL, 10);
    else if (strcmp(line, "tick") == 0) setup.tick = (uint32_t)strtoul(rest, NULL, 10);
    else if (strcmp(line, "turns") == 0) run.turn_limit = strtoull(rest, NULL, 10);
    else if (strcmp(line, "steps") == 0) run.step_limit = strtoull(rest, NULL, 10);
    else if (strcmp(line, "input") == 0) take_input(rest);
    else if (strcmp(line, "answer") == 0) take_answer(rest);
    else if (strcmp(line, "dma") == 0) take_dma(rest);
    else if (strcmp(line, "atom") == 0) take_atom(rest);
    else if (strcmp(line, "all-places") == 0) run.all_places = true;
    else if (strcmp(line, "raise") == 0) take_raise(rest);
    else if (strcmp(line, "acquire") == 0) take_acquire(rest);
    else if (strcmp(line, "ends") == 0) take_ends(rest);
    else if (strcmp(line, "jobs") == 0) set_crew((uint32_t)strtoul(rest, NULL, 10));
    else if (strcmp(line, "progress") == 0) ask_for_progress();
    else if (strcmp(line, "stamp") == 0) begin_saved_with(rest);
    else if (strcmp(line, "save") == 0) take_save(rest);
    else if (strcmp(line, "resume") == 0) resume_from(copy_of(rest));
    else if (strcmp(line, "scouts") == 0) set_scouts((int)strtol(rest, NULL, 10));
    else if (strcmp(line, "keep") == 0) keep_at_most(strtoul(rest, NULL, 10));
    else if (strcmp(line, "turn") == 0) take_turn(rest);
    else if (strcmp(line, "search") == 0) do_search(rest);
    else if (strcmp(line, "chance") == 0) do_chance(rest);
    else if (strcmp(line, "ready") == 0) ready(), printf("ready\n");
    else if (strcmp(line, "guide") == 0) do_guide(rest, false);
    else if (strcmp(line, "tell") == 0) do_guide(rest, true);
    else if (strcmp(line, "without-idle-steps") == 0) do_without_idle_steps();
    else fail("no such line");
}

static void on_interrupt(int signal) {
    (void)signal;
    interrupt_search();
}

/* Ctrl-C comes to this program too. It ends a search, which then says what it has covered. */
static void take_interrupts(void) {
    struct sigaction action = {.sa_handler = on_interrupt, .sa_flags = SA_RESTART};
    sigemptyset(&action.sa_mask);
    sigaction(SIGINT, &action, NULL);
    signal(SIGXFSZ, SIG_IGN); /* a search that can't be saved goes on */
}

/* A table that has grown leaves its room to others, and memory is asked for in large pieces. Else the system would clear pages and change
   its maps again and again, and meanwhile hold up all of the crew. */
static void keep_freed_memory(void) {
#ifdef __GLIBC__
    mallopt(M_MMAP_THRESHOLD, 1 << 25);
    mallopt(M_TRIM_THRESHOLD, INT_MAX);
    mallopt(M_TOP_PAD, 1 << 26);
    mallopt(M_ARENA_MAX, 1);
#endif
}

int main(void) {
    static char line[1 << 17];
    take_interrupts();
    keep_freed_memory();
    while (fgets(line, sizeof line, stdin) != NULL) {
        line[strcspn(line, "\n")] = 0;
        take_line(line);
        fflush(stdout);
    }
    return 0;
}
