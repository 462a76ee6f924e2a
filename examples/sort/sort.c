/* Sorts numbers on a heap, checks that they ascend and are the same numbers, and ends with a checksum of them in their
   order, or with 0 if a check fails. */

enum { COUNT = 48 };

static unsigned seed = 2024; /* in .data */
static unsigned values[COUNT]; /* in .bss */

static unsigned next(void) {
    seed = seed * 1664525 + 1013904223;
    return seed >> 16;
}

static void sift_down(unsigned *heap, int root, int end) {
    unsigned value = heap[root];
    for (;;) {
        int child = 2 * root + 1;
        if (child >= end)
            break;
        if (child + 1 < end && heap[child] < heap[child + 1])
            child++;
        if (heap[child] <= value)
            break;
        heap[root] = heap[child];
        root = child;
    }
    heap[root] = value;
}

static void sort(unsigned *heap, int count) {
    for (int root = count / 2 - 1; root >= 0; root--)
        sift_down(heap, root, count);
    for (int end = count - 1; end > 0; end--) {
        unsigned greatest = heap[0];
        heap[0] = heap[end];
        heap[end] = greatest;
        sift_down(heap, 0, end);
    }
}

static unsigned sum(const unsigned *numbers, int count) {
    unsigned total = 0;
    for (int i = 0; i < count; i++)
        total += numbers[i];
    return total;
}

static int ascends(const unsigned *numbers, int count) {
    for (int i = 1; i < count; i++)
        if (numbers[i - 1] > numbers[i])
            return 0;
    return 1;
}

static unsigned checksum(const unsigned *numbers, int count) {
    unsigned hash = 2166136261u;
    for (int i = 0; i < count; i++)
        hash = (hash ^ numbers[i]) * 16777619u;
    return hash;
}

unsigned run(void) {
    for (int i = 0; i < COUNT; i++)
        values[i] = next();
    unsigned before = sum(values, COUNT);
    sort(values, COUNT);
    if (!ascends(values, COUNT) || sum(values, COUNT) != before)
        return 0;
    return checksum(values, COUNT);
}

/* A thread starts with every register 0: the global pointer and the stack are set up, and the checksum goes to the
   kernel's exit, call 0. */
static char stack[1024] __attribute__((aligned(16), used));

__asm__(".globl _start\n"
        "_start:\n"
        ".option push\n"
        ".option norelax\n"
        "    la gp, __global_pointer$\n"
        ".option pop\n"
        "    la sp, stack + 1024\n"
        "    call run\n"
        "    li a7, 0\n"
        "    ecall\n");
