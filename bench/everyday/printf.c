/* snprintf of the C library: numbers and text of several forms. A round takes 6,854 cycles, on simavr too.
   avr-gcc -mmcu=atmega128 -Os -o printf.elf printf.c && avr-objcopy -j .text -j .data -O ihex printf.elf printf.hex */
#include "round.h"
#include <stdio.h>

static uint8_t prints(void)
{
    static volatile int16_t number = -1234;
    static volatile uint32_t wide = 4000000000;
    char text[48];
    snprintf(text, sizeof text, "%d %5u %04x %lu %s%c", number, 42, 0xBEEF, wide, "text", '!');
    return strcmp(text, "-1234    42 beef 4000000000 text!") == 0;
}

AGAIN(prints())
