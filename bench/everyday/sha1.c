/* SHA-1 (FIPS 180-4) of "abc", one block. A round takes 59,148 cycles, on simavr too.
   avr-gcc -mmcu=atmega128 -Os -o sha1.elf sha1.c && avr-objcopy -j .text -j .data -O ihex sha1.elf sha1.hex */
#include "round.h"

static uint32_t left(uint32_t x, uint8_t n)
{
    return x << n | x >> (32 - n);
}

static void block(uint32_t h[5], const uint8_t text[64])
{
    uint32_t w[16], a = h[0], b = h[1], c = h[2], d = h[3], e = h[4];
    for (uint8_t i = 0; i < 16; i++)
        w[i] = (uint32_t)text[4 * i] << 24 | (uint32_t)text[4 * i + 1] << 16 | (uint16_t)(text[4 * i + 2] << 8) | text[4 * i + 3];
    for (uint8_t i = 0; i < 80; i++) {
        uint32_t f;
        if (i >= 16)
            w[i & 15] = left(w[(i + 13) & 15] ^ w[(i + 8) & 15] ^ w[(i + 2) & 15] ^ w[i & 15], 1);
        if (i < 20)
            f = (d ^ (b & (c ^ d))) + 0x5A827999;
        else if (i < 40)
            f = (b ^ c ^ d) + 0x6ED9EBA1;
        else if (i < 60)
            f = ((b & c) | (d & (b | c))) + 0x8F1BBCDC;
        else
            f = (b ^ c ^ d) + 0xCA62C1D6;
        f += left(a, 5) + e + w[i & 15];
        e = d;
        d = c;
        c = left(b, 30);
        b = a;
        a = f;
    }
    h[0] += a;
    h[1] += b;
    h[2] += c;
    h[3] += d;
    h[4] += e;
}

static uint8_t sha1(void)
{
    static volatile uint8_t letter = 'a';
    uint32_t h[5] = {0x67452301, 0xEFCDAB89, 0x98BADCFE, 0x10325476, 0xC3D2E1F0};
    uint8_t text[64] = {0, 'b', 'c', 0x80};
    text[0] = letter;
    text[63] = 24;
    block(h, text);
    return h[0] == 0xA9993E36 && h[1] == 0x4706816A && h[2] == 0xBA3E2571 && h[3] == 0x7850C26C && h[4] == 0x9CD0D89D;
}

AGAIN(sha1())
