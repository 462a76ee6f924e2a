/* A search in a file, as it is while all of the crew have come back: what is known of words and loops, the states that were met, what is
   to be tried, and what was told. A search that goes on from there comes to what it would have come to. */
#ifndef SAVED_H
#define SAVED_H

#include "items.h"
#include "search.h"

struct stand {
    struct tally tally;
    uint64_t tries;
    double seconds; /* that it has taken */
    struct list left, later;
    char *told; /* of each bound that was done the line */
    size_t told_length;
    uint64_t of_bound; /* how many items there were to begin with */
};

/* A line to begin the file with. Whoever asks for the search to go on has compared it. */
void begin_saved_with(const char *line);
/* Whether it was saved. If it wasn't, what was saved there before is still there, and errno says why. */
bool save_stand(const char *name, const struct stand *s, uint32_t memory_size);
/* Nothing was met or tried yet. If the file isn't whole it says so, and ends the program. */
void take_stand(const char *name, struct stand *s, uint32_t memory_size);

#endif
