/* A search as a whole: what was asked for, how far it is, and what those of the crew add to it. */
#ifndef WHOLE_H
#define WHOLE_H

#include "crew.h"
#include "items.h"
#include "search.h"
#include "telling.h"

/* Of all of the crew. It changes while all have come back, except for what is atomic, or under the lock. */
struct whole {
    struct run *first_run; /* of whoever began the search */
    struct run as_begun;   /* how it was then */
    const struct condition *bad;
    const struct limits *limits;
    struct tally *tally;
    double began_at, ends_at; /* at the latest; a search that goes on began so much earlier */
    uint64_t of_bound;        /* how many items there were to begin with */
    struct counter tries;
    atomic_flag lock;
    struct list later;       /* to be tried with one forced switch more */
    struct run *found;       /* the run that ends badly, or NULL */
    uint32_t changes_before; /* when the crew began */
};
extern struct whole whole;

/* Of each of the crew what it has put off, and counted. It is added to the whole when it comes back. */
struct own {
    struct list put_off;
    struct tally counts;
};
extern _Thread_local struct own own;

void hand_in(void);
void has_found(struct run *run);
struct standing standing(void);
/* Somebody has found a word that is shared, or a places' word: all runs are given up. A run that is done once more comes to other stops by
   now, so it isn't to part there. */
bool is_outdated(void);

#endif
