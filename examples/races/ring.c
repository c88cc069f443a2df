/* Race: handlers put into a ring and do count++, main takes from it and does count--: a handler that comes within count--
   is forgotten, and from then on the ring is one entry behind.
   A timer's ticks (`t`) and each byte on USART0 are written in the order in which they came. With -DFIXED count-- is done
   with interrupts off. */
#include <avr/interrupt.h>
#include <avr/io.h>
#include <util/atomic.h>
enum { ENTRIES = 16 };
static volatile uint8_t ring[ENTRIES], count;
static uint8_t head, tail, samples[32];
static void add(uint8_t entry)
{
    if (count == ENTRIES) return;
    ring[head] = entry;
    head = (head + 1) % ENTRIES;
    count++;
}
ISR(USART0_RX_vect)
{
    add(UDR0);
}
ISR(TIMER1_COMPA_vect)
{
    add('t');
}
static void put(char c)
{
    loop_until_bit_is_set(UCSR0A, UDRE0);
    UDR0 = c;
}
/* What main is busy with. */
static void filter(void)
{
    for (uint8_t i = 1; i < 32; i++) samples[i] = (samples[i] * 3 + samples[i - 1] + i) >> 2;
}
static uint8_t take(void)
{
    uint8_t entry = ring[tail];
    tail = (tail + 1) % ENTRIES;
#ifdef FIXED
    ATOMIC_BLOCK(ATOMIC_RESTORESTATE) count--;
#else
    count--;    /* the race */
#endif
    return entry;
}
int main(void)
{
    UBRR0L = 3;
    UCSR0B = _BV(RXCIE0) | _BV(RXEN0) | _BV(TXEN0);
    OCR1A = 4999;
    TIMSK = _BV(OCIE1A);
    TCCR1B = _BV(WGM12) | _BV(CS10);
    sei();
    for (;;) {
        while (count) put(take());
        filter();
    }
}
