/* What the files of the machine have in common, and nobody else needs. */
#ifndef INSIDE_H
#define INSIDE_H

#include "machine.h"

struct hash chained(struct hash h, uint64_t v);
void happened(struct machine *m); /* something that isn't a store, and that others may notice */
void put_word(struct machine *m, uint32_t address, uint32_t word);
void put_bytes(struct machine *m, uint32_t context, uint32_t address, const uint8_t *bytes, uint32_t length);
const struct code *code_at(struct machine *m, uint32_t pc);
void run_store(struct machine *m, uint32_t number, uint32_t address, const struct code *c);
void put_register(struct thread *t, uint32_t r, uint32_t v);

/* Of an instruction. An acquire may be a place, or wait. */
static inline bool is_marked(const struct machine *m, uint32_t pc) { return m->setup->acquires != NULL && m->setup->acquires[pc / 4]; }

#endif
