/* Hashes. That of a state is the sum of those of its parts, so that a part can be changed alone. */
#ifndef HASH_H
#define HASH_H

#include <stdbool.h>
#include <stdint.h>

struct hash { uint64_t a, b; };

static inline uint64_t stirred(uint64_t v) {
    v ^= v >> 32;
    v *= 0xD6E8FEB86659FD93u;
    v ^= v >> 32;
    v *= 0xD6E8FEB86659FD93u;
    return v ^ v >> 32;
}

static inline struct hash mixed(uint64_t a, uint64_t b) {
    uint64_t h = stirred(a * 0x9E3779B97F4A7C15u + b + 1);
    return (struct hash){h, stirred(h ^ (b * 0xC2B2AE3D27D4EB4Fu + a))};
}

static inline struct hash sum(struct hash h, struct hash g) { return (struct hash){h.a + g.a, h.b + g.b}; }

static inline bool same_hash(struct hash h, struct hash g) { return h.a == g.a && h.b == g.b; }

#endif
