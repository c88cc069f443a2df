/* Counts the primes below 2,000 by a sieve, and returns from main: behind that avr-libc turns interrupts off and jumps to itself.
   avr-gcc -mmcu=atmega128 -Os -o ends.elf ends.c && avr-objcopy -O ihex ends.elf ends.hex */
#include <avr/io.h>
#include <stdint.h>

#define MOST 2000

static uint8_t composite[MOST];
volatile uint16_t primes;

int main(void)
{
    for (uint16_t n = 2; n < MOST; n++) {
        if (composite[n])
            continue;
        primes++;
        for (uint16_t m = 2 * n; m < MOST; m += n)
            composite[m] = 1;
    }
    return 0;
}
