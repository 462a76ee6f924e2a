/* Makes every call of the kernel, and puts a letter on the console for each that answers as it should, else a dot. */
#include "delorean.h"

static struct stack stack;
static volatile unsigned interrupts;
/* interrupt_entry ends it by the call iret. */
void on_interrupt(unsigned value) {
    (void)value;
    interrupts++;
}

static void check(char letter, int good) {
    char put = good ? letter : '.';
    write(CONSOLE, &put, 1);
}

static unsigned second(unsigned argument) {
    check('s', self() == 1);
    return argument;
}

int main(void) {
    char text[4] = "abc", copy[4] = "";
    unsigned number = 0;
    volatile unsigned block[2] = {0xFFFFFFFF, 0};

    check('w', write(3, text, 3) == 3);
    check('r', read(3, copy, 4) == 3 && copy[2] == 'c');
    check('n', read(3, copy, 4) == NOTHING_NOW);
    check('c', write(10, text, 3) == REFUSED);
    check('b', write(3, (void *)0xFFFFFFF0, 3) == BAD_BUFFER);
    check('u', kernel(0, 0, 0, 12) == UNKNOWN);
    check('i', read(INPUT, copy, 1) == 1 && copy[0] == '1' && INPUT_BYTE == '2');
    check('R', random(&number, 4) == 4 && number != 0);
    unsigned before = clock();
    check('t', before < MOMENT);
    check('h', handler(interrupt_entry) == 0);
    while (interrupts == 0)
        yield();
    check('I', handler(0) == 0);
    check('y', yield() == 0);
    unsigned thread = start_thread(second, 9, &stack);
    check('S', thread == 1);
    join(thread);
    check('e', ended(2) == REFUSED);
    check('d', dma(block, 4) == 0);
    while (block[0] == 0xFFFFFFFF)
        ;
    check('D', block[0] == 2 && block[1] == '3' + ('4' << 8));
    CONSOLE_BYTE = '\n';
    exit(7);
}
