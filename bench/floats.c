/* The floating-point library of the compiler: a sum of square roots, sines and quotients, with no device in use.
   avr-gcc -mmcu=atmega128 -Os -o floats.elf floats.c -lm && avr-objcopy -O ihex floats.elf floats.hex */
#include <avr/io.h>
#include <math.h>

int main(void)
{
    volatile float sum = 0;
    float x = 1;
    for (;;) {
        sum += sqrt(x) * sin(x) / (x + 2);
        x += 0.37f;
        if (x > 1000)
            x = 1;
        PORTA = (unsigned char)sum;
    }
}
