/* memcpy, memmove and memset of the C library on buffers of 200 bytes. A round takes 4,272 cycles, on simavr too.
   avr-gcc -mmcu=atmega128 -Os -o memcpy.elf memcpy.c && avr-objcopy -j .text -j .data -O ihex memcpy.elf memcpy.hex */
#include "round.h"

static uint8_t from[200], to[200];

static uint8_t copies(void)
{
    static uint8_t seed;
    memset(from, ++seed, sizeof from);
    from[0] = seed + 1;
    memcpy(to, from, sizeof to);
    memmove(to + 1, to, sizeof to - 1);
    return to[0] == (uint8_t)(seed + 1) && to[1] == (uint8_t)(seed + 1) && to[2] == seed && to[199] == seed;
}

AGAIN(copies())
