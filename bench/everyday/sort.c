/* qsort of the C library: sixty numbers of 16 bits. A round takes 34,825 cycles, on simavr too.
   avr-gcc -mmcu=atmega128 -Os -o sort.elf sort.c && avr-objcopy -j .text -j .data -O ihex sort.elf sort.hex */
#include "round.h"
#include <stdlib.h>

static uint16_t numbers[60];

static int order(const void *a, const void *b)
{
    uint16_t x = *(const uint16_t *)a, y = *(const uint16_t *)b;
    return x < y ? -1 : x > y;
}

static uint8_t sorts(void)
{
    uint16_t x = 1;
    for (uint8_t i = 0; i < 60; i++) {
        x = x * 25173 + 13849;
        numbers[i] = x;
    }
    qsort(numbers, 60, sizeof *numbers, order);
    for (uint8_t i = 1; i < 60; i++)
        if (numbers[i - 1] > numbers[i])
            return 0;
    return 1;
}

AGAIN(sorts())
