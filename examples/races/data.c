/* Race that needs the right data too: a timer (by 7) and the byte on USART0 (by 32) change a sum of 16 bits that main reads
   in two halves, and what it reads is wrong only where the byte makes the low half overflow: in one of eight.
   Main writes `E` where the sum has leapt. With -DFIXED it is read with interrupts off. */
#include <avr/interrupt.h>
#include <avr/io.h>
#include <util/atomic.h>
enum { LEAP = 0x80 };
static volatile uint16_t sum;
ISR(USART0_RX_vect)
{
    sum += UDR0;
}
ISR(TIMER1_COMPA_vect)
{
    sum += 7;
}
static uint16_t get_sum(void)
{
    uint16_t seen;
#ifdef FIXED
    ATOMIC_BLOCK(ATOMIC_RESTORESTATE) seen = sum;
#else
    seen = sum;     /* the race */
#endif
    return seen;
}
int main(void)
{
    uint16_t last = 0;
    UBRR0L = 3;
    UCSR0B = _BV(RXCIE0) | _BV(RXEN0) | _BV(TXEN0);
    OCR1A = 999;
    TIMSK = _BV(OCIE1A);
    TCCR1B = _BV(WGM12) | _BV(CS10);
    sei();
    for (;;) {
        uint16_t now = get_sum();
        if (now - last > LEAP) UDR0 = 'E';
        last = now;
        for (uint8_t i = 0; i < 40; i++) PORTA = i;
    }
}
