/* Takes numbers out of pipe 0 and puts the square of each into pipe 1, until it gets 0; ends with how many it has answered. */
#include "delorean.h"

int main(void) {
    unsigned count = 0;
    for (;;) {
        unsigned char number;
        while (read(0, &number, 1) != 1)
            ;
        if (number == 0)
            return count;
        number *= number;
        write(1, &number, 1);
        count++;
    }
}
