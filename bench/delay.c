/* A pin that turns every ten milliseconds, by the delay loop of avr-libc.
   avr-gcc -mmcu=atmega128 -Os -o delay.elf delay.c && avr-objcopy -O ihex delay.elf delay.hex */
#define F_CPU 7372800UL
#include <avr/io.h>
#include <util/delay.h>

int main(void)
{
    DDRB = 1;
    for (;;) {
        PORTB ^= 1;
        _delay_ms(10);
    }
}
