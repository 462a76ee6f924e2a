/* Hashes a text in several ways, with bytes, halves, multiplications and divisions, each checked by another way, and ends
   with a checksum of all, or with 0 if a check fails. */

typedef signed char i8;
typedef unsigned char u8;
typedef short i16;
typedef unsigned short u16;
typedef int i32;
typedef unsigned u32;
typedef long long i64;
typedef unsigned long long u64;

enum { LENGTH = 96 };

static const char words[] = "Chunks commit in an order, and the order is all that a replay needs. ";
static u8 text[LENGTH] __attribute__((aligned(4)));
static u16 table[16];
static i16 waves[LENGTH / 2];
static u32 parts[4];

static void fill(void) {
    for (u32 i = 0; i < LENGTH; i++)
        text[i] = words[i % (sizeof words - 1)] + (u8)(i / 9);
}

/* The checksum CRC-16, by a table of halves for four bits at a time. */
static u16 crc_by_table(void) {
    for (u32 i = 0; i < 16; i++) {
        u16 row = (u16)(i << 12);
        for (int bit = 0; bit < 4; bit++)
            row = (u16)(row & 0x8000 ? row << 1 ^ 0x1021 : row << 1);
        table[i] = row;
    }
    u16 crc = 0xFFFF;
    for (u32 i = 0; i < LENGTH; i++) {
        crc = (u16)(crc << 4 ^ table[crc >> 12 ^ text[i] >> 4]);
        crc = (u16)(crc << 4 ^ table[crc >> 12 ^ (text[i] & 15)]);
    }
    return crc;
}

/* The same, bit by bit. */
static u16 crc_by_bits(void) {
    u16 crc = 0xFFFF;
    for (u32 i = 0; i < LENGTH; i++) {
        crc = (u16)(crc ^ text[i] << 8);
        for (int bit = 0; bit < 8; bit++)
            crc = (u16)(crc & 0x8000 ? crc << 1 ^ 0x1021 : crc << 1);
    }
    return crc;
}

/* Adler's sums modulo 65521, and whether a quotient and a remainder give the sum back. */
static u32 adler(int *good) {
    u32 a = 1, b = 0;
    for (u32 i = 0; i < LENGTH; i++) {
        a += text[i];
        b += a * 17;
        u32 quotient = b / 65521;
        u32 rest = b % 65521;
        if (quotient * 65521 + rest != b)
            *good = 0;
        b = rest;
    }
    return b << 16 | a;
}

/* Signed halves and bytes, divided towards zero. */
static u32 waved(int *good) {
    for (i32 i = 0; i < LENGTH / 2; i++) {
        i8 low = (i8)text[2 * i];
        i8 high = (i8)(text[2 * i + 1] ^ 0xFF);
        waves[i] = (i16)(low * high - 321 * i);
    }
    i32 sum = 0;
    for (i32 i = 0; i < LENGTH / 2; i++) {
        i32 divisor = (i8)(text[i] - 'a') | 1;
        i32 quotient = waves[i] / divisor;
        i32 rest = waves[i] % divisor;
        if (quotient * divisor + rest != waves[i] || (rest != 0 && (rest < 0) != (waves[i] < 0)))
            *good = 0;
        sum = 31 * sum + 7 * quotient - rest;
    }
    return (u32)sum;
}

/* The high halves of products, signed and unsigned, and a division of 64 bits by hand. */
static u32 mixed(int *good) {
    u64 hash = 0xCBF29CE4;
    for (u32 i = 0; i < LENGTH; i += 4) {
        u32 word;
        __builtin_memcpy(&word, text + i, sizeof word);
        word |= 1;
        u64 product = (u64)(u32)hash * word;
        i64 twisted = (i64)(i32)hash * (i32)word;
        u32 high = (u32)(product >> 32);
        if ((u32)product != (u32)twisted || (u32)product / word > (u32)product)
            *good = 0;
        parts[i / 4 % 4] += high ^ (u32)(twisted >> 32);
        hash = (product ^ hash >> 7) + high;
    }
    return parts[0] ^ parts[1] << 8 ^ parts[2] << 16 ^ parts[3];
}

u32 run(void) {
    int good = 1;
    fill();
    u16 crc = crc_by_table();
    good &= crc == crc_by_bits();
    u32 hash = crc * 2654435761u;
    hash = (hash ^ adler(&good)) * 16777619u;
    hash = (hash ^ waved(&good)) * 16777619u;
    hash = (hash ^ mixed(&good)) * 16777619u;
    return good ? hash : 0;
}

/* A thread starts with every register 0: the global pointer and the stack are set up, and the checksum goes to the
   kernel's exit, call 0. */
static char stack[1024] __attribute__((aligned(16), used));

__asm__(".globl _start\n"
        "_start:\n"
        ".option push\n"
        ".option norelax\n"
        "    la gp, __global_pointer$\n"
        ".option pop\n"
        "    la sp, stack + 1024\n"
        "    call run\n"
        "    li a7, 0\n"
        "    ecall\n");
