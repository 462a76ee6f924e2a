/* A sphere that is moved by hand, one instruction of one thread at a time: threads, memory, kernel and devices. It knows no
   order and no log; who calls it chooses the thread. All stores are kept in a journal, so the start comes back in no time. */
#ifndef MACHINE_H
#define MACHINE_H

#include "hash.h"

#include <stdbool.h>
#include <stddef.h>
#include <stdint.h>
#include <string.h>

enum { MOST_THREADS = 63, PIPES = 8, PIPE_ROOM = 256, LONGEST = 4096 };
enum { NO_RESERVATION = 1 }; /* no address of a word */
enum { SP = 2, TP = 4 };     /* registers */
enum { LIVE, EXITED, FAULTED };
enum { EXIT, SPAWN, WRITE, READ, RANDOM, CLOCK, HANDLER, IRET, REQUEST, SELF, YIELD, HAS_ENDED, MOMENT_LOAD = 16, INPUT_LOAD };
enum { CONSOLE_CHANNEL = 8, INPUT_CHANNEL = 9 };
#define UNKNOWN 0xFFFFFFFFu
#define BAD_BUFFER 0xFFFFFFFEu
#define NOTHING_NOW 0xFFFFFFFDu
#define REFUSED 0xFFFFFFFCu
#define MOMENT_WORD 0xF0000000u
#define INPUT_WORD 0xF0000004u
#define CONSOLE_WORD 0xF0000008u

struct thread {
    uint32_t pc, x[32], reservation, handler, masked, saved_pc, saved_a0, saved_a1, status, code;
};

/* What the next instruction of a thread is. */
enum kind { LOCAL, MEMORY, CALL, BREAK, DEVICE_LOAD, DEVICE_STORE, FAULT };
struct next {
    enum kind kind;
    uint32_t address; /* of an access, or of a device's word */
    uint32_t cause;   /* of a fault */
};

/* A word of code, taken apart. It is known to be plain as long as no word has become shared or a places' word since: then `plain` is what
   the count of such changes is, and 1. 0 if it isn't plain, or that isn't known. */
struct code {
    uint32_t word;
    uint8_t operation, rd, rs1, rs2;
    int32_t value;
    uint32_t plain;
};

/* What came from outside for one serial step. thread: whose step it answers, or ANYONE's. */
enum { ANYONE = 255 };
struct answer {
    uint8_t kind, thread, used;
    uint32_t result;
    uint16_t length;
    uint8_t *bytes;
};

struct devices {
    uint64_t random;
    uint32_t input_at, reads_of_clock;
    struct hash console;
    uint32_t console_length;
    uint16_t held[PIPES];
    uint8_t pipe[PIPES][PIPE_ROOM];
};

/* What never changes while the program is searched. */
struct setup {
    uint32_t size, entry, most_threads, tick;
    uint32_t longest_chunk; /* instructions */
    uint8_t *image;
    uint64_t seed;
    uint8_t *input;
    uint32_t input_length;
    struct answer *answers; /* used before the devices are asked */
    size_t answer_count;
    struct answer *dmas; /* data of requests, likewise */
    size_t dma_count;
    bool *acquires; /* of each word of code whether it is marked as one that takes a lock; NULL if none is */
};

struct stored { uint32_t address, old; };

struct machine {
    struct setup *setup;
    uint8_t *memory;
    struct code *code; /* of each word that was fetched */
    struct hash memory_hash;
    uint32_t thread_count;
    bool requested;
    uint32_t request_buffer, request_length;
    struct devices devices;
    uint8_t *console;
    size_t console_room;
    struct stored *journal;
    size_t journal_length, journal_room;
    uint64_t stores; /* those that changed a word */
    uint64_t events; /* ends and starts of threads, requests, interrupts, and whatever moved the devices */
    uint64_t time;   /* steps of all threads */
    uint64_t reserved_at; /* when the last LR was done; only the thread that goes on has a reservation */
    size_t dmas_done;
    uint64_t ended;            /* the threads that have ended, as bits */
    struct hash answers_taken; /* which of the answers that were handed in */
    struct thread threads[MOST_THREADS]; /* last, so that a copy ends with those that there are */
};

/* What one serial step did, beside what it changed. */
struct served {
    bool loads;
    uint32_t load_address, load_value;
    bool answered;
    struct answer answer;
    const uint8_t *output; /* put on the channel; none where output_length is 0 */
    uint32_t channel, output_length;
};

void start_machine(struct machine *m, struct setup *setup);
void reset_machine(struct machine *m);
struct next next_of(struct machine *m, const struct thread *t);
void run_local(struct machine *m, uint32_t number);
/* Where plain instructions end, beside where they are no longer plain. */
struct stretch {
    uint64_t most;               /* instructions */
    const struct thread *mark;   /* once the thread has this pc and these registers */
    const struct stacks *stacks; /* once its sp has come below its stack; tp 0 if that isn't asked */
    bool is_below;               /* it has */
};
/* Plain instructions; how many they were. Plain is what is at no place: local instructions, loads and stores. But one that wasn't taken
   apart yet isn't counted among them, nor is one with a mark. */
uint64_t run_plain(struct machine *m, uint32_t number, struct stretch *stretch);
void run_access(struct machine *m, uint32_t number, uint32_t address, struct served *load);
void serve(struct machine *m, uint32_t number, struct next next, struct served *served);
void end_chunk(struct thread *t);
bool can_interrupt(const struct thread *t);
void interrupt(struct machine *m, uint32_t number, uint32_t value);
uint32_t do_request(struct machine *m);
/* Of a thread's next instruction, which next_of was asked for: */
bool is_load_reserved(const struct machine *m, const struct thread *t);
bool is_store(const struct machine *m, const struct thread *t);
bool is_store_conditional(const struct machine *m, const struct thread *t);
/* Whether an SC to this address would succeed: its chunk can have begun before the LR. */
bool has_reserved(const struct machine *m, const struct thread *t, uint32_t address);
/* For how many steps it has held a reservation; 0 if it holds none, or for longer than any chunk. */
uint64_t reservation_age(const struct machine *m, const struct thread *t);
struct hash hash_of_thread(const struct thread *t);
struct hash hash_of_rest(const struct machine *m);
_Noreturn void fail(const char *why);
void *room(size_t count, size_t size);
void *more_room(void *old, size_t count, size_t size);

static inline uint32_t word_at(const struct machine *m, uint32_t address) {
    uint32_t word;
    memcpy(&word, m->memory + (address & ~3u), 4);
    return word;
}

#endif
