/* Sends another byte with each tick of timer 1, of 9,216 cycles, and sleeps between. */
#include <avr/interrupt.h>
#include <avr/sleep.h>
#include "../../../examples/radio.h"
enum { TICK = 9216 };
static volatile uint8_t ticks;
static uint8_t next_value = 5;
ISR(TIMER1_COMPA_vect) { ticks++; }
static uint8_t compute(uint8_t from) { return from * 3 + 1; }
int main(void)
{
    radio_init();
    TCCR1B = 1 << WGM12 | 1 << CS10;
    OCR1A = TICK - 1;
    TIMSK = 1 << OCIE1A;
    sei();
    for (;;) {
        sleep_mode();
        next_value = compute(next_value);
        radio_send_when_free(next_value);
    }
}
