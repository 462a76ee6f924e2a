/* Copies the input to the console: its first byte by the device's words, the next four by read and write, and the rest by
   DMA. Ends with the number of bytes. */
#include "delorean.h"

enum { MOST = 64 };

int main(void) {
    char four[4];
    static volatile unsigned block[1 + MOST / 4];

    CONSOLE_BYTE = INPUT_BYTE;
    unsigned taken = read(INPUT, four, 4);
    write(CONSOLE, four, taken);
    block[0] = 0xFFFFFFFF; /* what the DMA never puts there */
    dma(block, MOST);
    while (block[0] == 0xFFFFFFFF)
        ;
    write(CONSOLE, (const void *)(block + 1), block[0]);
    return 1 + taken + block[0];
}
