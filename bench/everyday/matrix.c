/* The product of two matrices of eight by eight numbers of 16 bits: a matrix times its inverse. A round takes 22,238 cycles, on simavr too.
   avr-gcc -mmcu=atmega128 -Os -o matrix.elf matrix.c && avr-objcopy -j .text -j .data -O ihex matrix.elf matrix.hex */
#include "round.h"

#define N 8

static int16_t a[N][N], b[N][N], c[N][N];

static uint8_t matrix(void)
{
    for (uint8_t i = 0; i < N; i++)
        for (uint8_t j = 0; j < N; j++) {
            a[i][j] = i >= j;
            b[i][j] = i == j ? 1 : i == j + 1 ? -1 : 0;
        }
    for (uint8_t i = 0; i < N; i++)
        for (uint8_t j = 0; j < N; j++) {
            int16_t sum = 0;
            for (uint8_t k = 0; k < N; k++)
                sum += a[i][k] * b[k][j];
            c[i][j] = sum;
        }
    for (uint8_t i = 0; i < N; i++)
        for (uint8_t j = 0; j < N; j++)
            if (c[i][j] != (i == j))
                return 0;
    return 1;
}

AGAIN(matrix())
