/* Race with a clock and not with memory: the byte's handler asks for a compare match at the timer's next clock. Where that
   clock comes between the read of TCNT1 and the clearing of the flag, the match is missed or forgotten, and comes only when
   the timer has gone round, 67,108,864 cycles later.
   A byte on USART0 is written back at the match. With -DFIXED the match is asked for one clock later. */
#include <avr/interrupt.h>
#include <avr/io.h>
#include <avr/sleep.h>
static volatile uint8_t asked;
ISR(USART0_RX_vect)
{
    asked = UDR0;
#ifdef FIXED
    OCR1B = TCNT1 + 1;
#else
    OCR1B = TCNT1;      /* the race, from here .. */
#endif
    TIFR = _BV(OCF1B);  /* .. to here */
    TIMSK |= _BV(OCIE1B);
}
ISR(TIMER1_COMPB_vect)
{
    UDR0 = asked;
    TIMSK &= (uint8_t)~_BV(OCIE1B);
}
int main(void)
{
    UBRR0L = 3;
    UCSR0B = _BV(RXCIE0) | _BV(RXEN0) | _BV(TXEN0);
    TCCR1B = _BV(CS12) | _BV(CS10);     /* clock / 1,024 */
    set_sleep_mode(SLEEP_MODE_IDLE);
    sei();
    for (;;) sleep_mode();
}
