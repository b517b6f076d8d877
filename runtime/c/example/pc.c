/* The example on a PC: the wire is standard input and output, and a tick comes with its line. */
#include "node.h"
#include "wire.h"

#include <stdio.h>

int wire_read(void)
{
    return getchar();
}

void wire_write(char character)
{
    (void)putchar(character);
}

int main(void)
{
    node_begin();
    do {
        wire_done();
        (void)fflush(stdout);
        if (!wire_wait()) {
            return 0;
        }
        node_tick();
    } while (true);
}
