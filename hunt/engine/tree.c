#include "tree.h"

#include <string.h>

enum { NONE = 0 }; /* no node; their numbers begin at 1 */
struct node {
    uint32_t item, first, last, next;
    bool tried;
};

/* Each of the crew has a tree of its own. */
static _Thread_local struct node *nodes;
static _Thread_local uint32_t count;
static _Thread_local size_t nodes_room;
static _Thread_local uint32_t *table; /* the nodes, by their items */
static _Thread_local size_t places;

/* ---------------------------------------------------------------- nodes by items */

static uint32_t *place_of(uint32_t item) {
    size_t at = item * 0x9E3779B1u & (places - 1);
    while (table[at] != NONE && nodes[table[at]].item != item)
        at = (at + 1) & (places - 1);
    return &table[at];
}

static uint32_t node_of(uint32_t item) { return places == 0 ? NONE : *place_of(item); }

static void grow(void) {
    places = places ? 2 * places : 1024;
    table = more_room(table, places, sizeof *table);
    memset(table, 0, places * sizeof *table);
    for (uint32_t j = 1; j <= count; j++)
        *place_of(nodes[j].item) = j;
}

static uint32_t add_node(uint32_t item) {
    if (2 * ((size_t)count + 1) >= places)
        grow();
    if ((size_t)count + 2 > nodes_room) {
        nodes_room = nodes_room ? 2 * nodes_room : 1024;
        nodes = more_room(nodes, nodes_room, sizeof *nodes);
    }
    nodes[++count] = (struct node){.item = item};
    *place_of(item) = count;
    return count;
}

/* ---------------------------------------------------------------- the tree */

static uint32_t stop_of(uint32_t node) { return item_of(nodes[node].item).stop; }

static void insert_after(struct node *parent, uint32_t before, uint32_t child) {
    uint32_t *link = before == NONE ? &parent->first : &nodes[before].next;
    nodes[child].next = *link;
    *link = child;
    if (parent->last == before)
        parent->last = child;
}

/* In the order of stops; mostly it is the last one. */
static void hang(uint32_t parent, uint32_t child) {
    struct node *p = &nodes[parent];
    uint32_t before = p->last;
    if (before != NONE && stop_of(before) > stop_of(child)) {
        before = NONE;
        for (uint32_t j = p->first; stop_of(j) <= stop_of(child); j = nodes[j].next)
            before = j;
    }
    insert_after(p, before, child);
}

/* With all that leads to it. */
static void add(uint32_t item) {
    if (node_of(item) != NONE)
        return;
    for (uint32_t child = add_node(item); nodes[child].item != FIRST_ITEM;) {
        uint32_t parent = item_of(nodes[child].item).parent, known = node_of(parent);
        uint32_t node = known == NONE ? add_node(parent) : known;
        hang(node, child);
        if (known != NONE)
            return;
        child = node;
    }
}

void make_tree(const uint32_t *items, size_t length) {
    count = 0;
    if (places > 0)
        memset(table, 0, places * sizeof *table);
    for (size_t j = 0; j < length; j++)
        add(items[j]);
}

static uint32_t item_at(uint32_t node) { return node == NONE ? NO_ITEM : nodes[node].item; }

uint32_t first_part(uint32_t item) {
    uint32_t node = node_of(item);
    return node == NONE ? NO_ITEM : item_at(nodes[node].first);
}

uint32_t next_part(uint32_t item) { return item_at(nodes[node_of(item)].next); }

static bool waits(const struct node *n) { return n->first == NONE && !n->tried; }

bool is_to_be_tried(uint32_t item) { return node_of(item) == NONE || waits(&nodes[node_of(item)]); }

void note_tried(uint32_t item) {
    if (node_of(item) != NONE)
        nodes[node_of(item)].tried = true;
}

void put_back(struct list *l) {
    for (uint32_t j = 1; j <= count; j++)
        if (waits(&nodes[j]))
            push(l, nodes[j].item);
}
