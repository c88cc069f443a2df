/* What Arduino's start-up code does on a node in place of its own `init`, which sets PWM modes and enables the ADC:
   both stop a node. Timer 0 counts at clock / 64, and overflows each 16,384 cycles, as `millis` and `delay` expect. */
#include <avr/interrupt.h>
#include <avr/io.h>
void init(void)
{
    TCCR0 = _BV(CS02);
    TIMSK |= _BV(TOIE0);
    sei();
}
