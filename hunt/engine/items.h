/* What the search has yet to try. An item is a way to go: what its parent's run does up to a stop, and there this choice. The
   whole crew shares them; an item never changes. */
#ifndef ITEMS_H
#define ITEMS_H

#include "machine.h"

#define NO_ITEM UINT32_MAX
#define FIRST_ITEM 0 /* of the first run; it has no parent */

struct item {
    uint32_t parent, stop; /* the number of the stop in its run */
    uint32_t places;       /* at which others could come, up to there */
    uint8_t choice;
};

struct list {
    uint32_t *items;
    size_t count, room;
};

uint32_t add_item(struct item item);
struct item item_of(uint32_t number);
uint32_t item_count(void);
void forget_items(void);
void push(struct list *l, uint32_t item);
void push_all(struct list *l, const struct list *others);

#endif
