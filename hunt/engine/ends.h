/* The different ends that a search comes to, if it is asked for them: of each what some words of memory were, how each thread had
   ended, and the fewest forced switches that led there. */
#ifndef ENDS_H
#define ENDS_H

#include "machine.h"

void collect_ends(uint32_t from, uint32_t length); /* with these bytes of memory; both are multiples of 4 */
void forget_ends(void);
void note_end(const struct machine *m, uint32_t forced);
void tell_ends(void);
size_t end_count(void);
const char *end_text(size_t number, uint32_t *forced);
void put_end(const char *text, uint32_t forced);

#endif
