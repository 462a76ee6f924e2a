#include "items.h"

#include "crew.h"

#include <stdatomic.h>
#include <string.h>

/* They are in blocks, which never move, so that whoever has an item's number can look at it while others add theirs. */
enum { BLOCK = 1 << 12, MOST_BLOCKS = 1 << 20 };

static struct item *_Atomic blocks[MOST_BLOCKS];
static struct counter count;
static atomic_flag lock = ATOMIC_FLAG_INIT; /* of adding a block */

static struct item *block_of(uint32_t number) {
    struct item *_Atomic *block = &blocks[number / BLOCK];
    if (*block != NULL)
        return *block;
    spin_lock(&lock);
    if (*block == NULL)
        *block = room(BLOCK, sizeof **block);
    spin_unlock(&lock);
    return *block;
}

uint32_t add_item(struct item item) {
    uint64_t number = count.value++;
    if (number >= NO_ITEM)
        fail("too many items");
    block_of((uint32_t)number)[number % BLOCK] = item;
    return (uint32_t)number;
}

struct item item_of(uint32_t number) { return block_of(number)[number % BLOCK]; }

uint32_t item_count(void) { return (uint32_t)count.value; }

void forget_items(void) { count.value = 0; }

static void make_room(struct list *l, size_t more) {
    if (l->count + more <= l->room)
        return;
    l->room = 2 * l->room > l->count + more ? 2 * l->room : l->count + more + 1024;
    l->items = more_room(l->items, l->room, sizeof *l->items);
}

void push(struct list *l, uint32_t item) {
    make_room(l, 1);
    l->items[l->count++] = item;
}

void push_all(struct list *l, const struct list *others) {
    if (others->count == 0)
        return;
    make_room(l, others->count);
    memcpy(l->items + l->count, others->items, others->count * sizeof *l->items);
    l->count += others->count;
}
