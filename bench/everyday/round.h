/* What the programs of this folder have in common: each does its work again and again, and turns PORTA's lowest bit behind each
   round whose result is the known one. A wrong result stops the node (BREAK). */
#include <avr/io.h>
#include <avr/pgmspace.h>
#include <stdint.h>
#include <string.h>

#define AGAIN(round)                      \
    int main(void)                        \
    {                                     \
        for (;;) {                        \
            if (!(round))                 \
                __asm__ volatile("break"); \
            PORTA ^= 1;                   \
        }                                 \
    }
