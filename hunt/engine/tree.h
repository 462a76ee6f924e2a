/* Items that are to be tried, with those that lead to them, as a tree: each hangs on the one from whose run it parts. */
#ifndef TREE_H
#define TREE_H

#include "items.h"

/* Of these items, which are to be tried. What it held before is gone. */
void make_tree(const uint32_t *items, size_t count);
/* The first of those that part from the item's run, in the order of their stops; or NO_ITEM. */
uint32_t first_part(uint32_t item);
/* The next one that parts from the same run. */
uint32_t next_part(uint32_t item);
/* Whether nothing parts from it, and it wasn't tried yet. */
bool is_to_be_tried(uint32_t item);
void note_tried(uint32_t item);
void put_back(struct list *l); /* those that weren't tried */

#endif
