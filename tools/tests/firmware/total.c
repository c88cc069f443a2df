/* Samples the air with each tick of timer 1, of 1,536 cycles, and adds up what it hears. */
#include <avr/interrupt.h>
#include <avr/sleep.h>
#include "../../../examples/radio.h"
enum { TICK = 1536 };
static uint8_t heard[8], count;
static uint16_t total;
static void take(uint8_t byte)
{
    heard[count++ & 7] = byte;
    total += byte;
}
ISR(TIMER1_COMPA_vect)
{
    struct radio_sample s;
    if (radio_hear(&s)) take(s.byte);
}
int main(void)
{
    radio_init();
    TCCR1B = 1 << WGM12 | 1 << CS10;
    OCR1A = TICK - 1;
    TIMSK = 1 << OCIE1A;
    sei();
    for (;;) sleep_mode();
}
