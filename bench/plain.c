/* A plain interpreter of the same instructions, to compare with: one thread, no chunks and no log.
   `plain IMAGE MEMORY COUNT` runs COUNT instructions, or up to an ECALL, and prints the thread as accounts do. */
#include <stdint.h>
#include <stdio.h>
#include <stdlib.h>
#include <string.h>

static uint8_t *memory;
static uint32_t size, pc, reserved = 1, x[32]; /* no word's address is 1 */

static void stop(const char *why) {
    fprintf(stderr, "plain: %s at %08X\n", why, pc);
    exit(1);
}

static uint32_t word_of(const uint8_t *from) {
    uint32_t word;
    memcpy(&word, from, 4);
    return word;
}

static uint32_t load_image(const char *name) {
    static uint8_t file[1 << 20];
    FILE *stream = fopen(name, "rb");
    if (stream == NULL || fread(file, 1, sizeof file, stream) < 52)
        stop("no image");
    uint32_t headers = word_of(file + 28), count = file[44];
    for (const uint8_t *header = file + headers; count > 0; count--, header += 32)
        if (word_of(header) == 1)
            memcpy(memory + word_of(header + 8), file + word_of(header + 4), word_of(header + 16));
    fclose(stream);
    return word_of(file + 24);
}

static uint8_t *at(uint32_t address, uint32_t width) {
    if (address % width != 0 || address >= size)
        stop("a bad address");
    return memory + address;
}

static uint32_t load(uint32_t kind, uint32_t address) {
    uint32_t value = 0, width = 1u << (kind & 3);
    memcpy(&value, at(address, width), width);
    return kind == 0 ? (uint32_t)(int8_t)value : kind == 1 ? (uint32_t)(int16_t)value : value;
}

static void store(uint32_t width, uint32_t address, uint32_t value) { memcpy(at(address, width), &value, width); }

static uint32_t divide(uint32_t kind, uint32_t a, uint32_t b) {
    int32_t left = (int32_t)a, right = (int32_t)b;
    if (b == 0)
        return kind < 6 ? UINT32_MAX : a;
    if (kind % 2 == 1)
        return kind == 5 ? a / b : a % b;
    if (a == 0x80000000 && right == -1)
        return kind == 4 ? a : 0;
    return (uint32_t)(kind == 4 ? left / right : left % right);
}

static uint32_t multiply(uint32_t kind, uint32_t a, uint32_t b) {
    int64_t left = (int32_t)a, right = (int32_t)b;
    switch (kind) {
    case 0: return a * b;
    case 1: return (uint32_t)((uint64_t)(left * right) >> 32);
    case 2: return (uint32_t)((uint64_t)(left * (int64_t)(uint64_t)b) >> 32);
    default: return (uint32_t)(((uint64_t)a * b) >> 32);
    }
}

static uint32_t arithmetic(uint32_t kind, int other, uint32_t a, uint32_t b) {
    switch (kind) {
    case 0: return other ? a - b : a + b;
    case 1: return a << (b & 31);
    case 2: return (int32_t)a < (int32_t)b;
    case 3: return a < b;
    case 4: return a ^ b;
    case 5: return other ? (uint32_t)((int32_t)a >> (b & 31)) : a >> (b & 31);
    case 6: return a | b;
    default: return a & b;
    }
}

static int taken(uint32_t kind, uint32_t a, uint32_t b) {
    int holds = kind < 2 ? a == b : kind < 6 ? (int32_t)a < (int32_t)b : a < b;
    return holds ^ (kind & 1);
}

static uint32_t atomic(uint32_t kind, uint32_t address, uint32_t b) {
    uint32_t old = load(2, address), sum;
    switch (kind) {
    case 0x00: sum = old + b; break;
    case 0x01: sum = b; break;
    case 0x02: reserved = address; return old;
    case 0x03: sum = reserved == address ? b : old; old = reserved != address; reserved = 1; break;
    case 0x04: sum = old ^ b; break;
    case 0x08: sum = old | b; break;
    case 0x0C: sum = old & b; break;
    case 0x10: sum = (int32_t)old < (int32_t)b ? old : b; break;
    case 0x14: sum = (int32_t)old > (int32_t)b ? old : b; break;
    case 0x18: sum = old < b ? old : b; break;
    default: sum = old > b ? old : b; break;
    }
    store(4, address, sum);
    return old;
}

static int step(void) {
    uint32_t w = load(2, pc), next = pc + 4, d = w >> 7 & 31, kind = w >> 12 & 7, a = x[w >> 15 & 31], b = x[w >> 20 & 31];
    uint32_t upper = w & 0xFFFFF000, seven = w >> 25, value = x[d];
    int32_t i = (int32_t)w >> 20, s = ((int32_t)w >> 25) * 32 + (int32_t)d;
    int32_t branch = ((int32_t)w >> 31) * 4096 + (int32_t)((w << 4 & 0x800) | (w >> 20 & 0x7E0) | (w >> 7 & 0x1E));
    int32_t jump = ((int32_t)w >> 31) * 1048576 + (int32_t)((w & 0xFF000) | (w >> 9 & 0x800) | (w >> 20 & 0x7FE));
    switch (w & 127) {
    case 0x37: value = upper; break;
    case 0x17: value = pc + upper; break;
    case 0x6F: value = next; next = pc + (uint32_t)jump; break;
    case 0x67: value = next; next = (a + (uint32_t)i) & ~1u; break;
    case 0x63: if (taken(kind, a, b)) next = pc + (uint32_t)branch; break;
    case 0x03: value = load(kind, a + (uint32_t)i); break;
    case 0x23: store(1u << kind, a + (uint32_t)s, b); break;
    case 0x13: value = arithmetic(kind, kind == 5 && seven == 0x20, a, (uint32_t)i); break;
    case 0x33: value = seven == 1 ? kind < 4 ? multiply(kind, a, b) : divide(kind, a, b) : arithmetic(kind, seven == 0x20, a, b); break;
    case 0x2F: value = atomic(w >> 27, a, b); break;
    case 0x0F: break;
    case 0x73: return 0;
    default: stop("no instruction");
    }
    if ((w & 127) != 0x63 && (w & 127) != 0x23 && (w & 127) != 0x0F)
        x[d] = value;
    x[0] = 0;
    pc = next;
    return 1;
}

int main(int count, char **words) {
    if (count != 4)
        return 2;
    size = (uint32_t)strtoul(words[2], NULL, 10);
    memory = calloc(size, 1);
    pc = load_image(words[1]);
    for (uint64_t left = strtoull(words[3], NULL, 10); left > 0 && step(); left--)
        ;
    printf("t 0 %08X live 00000000 0", pc);
    for (int n = 1; n < 32; n++)
        printf(" %08X", x[n]);
    printf("\n");
}
