/* Counts compare matches of timer 0 (CTC, clock / 64, 115 counts: 7,360 cycles) and toggles port A after each, asleep
   (idle) between.
   avr-gcc -mmcu=atmega128 -Os blink.c -o blink.elf
   avr-objcopy -j .text -j .data -O ihex blink.elf blink.hex */
#include <avr/interrupt.h>
#include <avr/io.h>
#include <avr/sleep.h>
static volatile uint16_t matches;
ISR(TIMER0_COMP_vect)
{
    matches++;
}
int main(void)
{
    DDRA = 0xff;
    OCR0 = 114;
    TIMSK = _BV(OCIE0);
    TCCR0 = _BV(WGM01) | _BV(CS02);
    set_sleep_mode(SLEEP_MODE_IDLE);
    sei();
    for (;;) {
        sleep_mode();
        PORTA ^= 0xff;
    }
}
