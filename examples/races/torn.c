/* Race: main reads a sum of 16 bits in two halves, and the handler that changes it may come between them.
   Each byte on USART0 is added; main writes the sum where it is new. With -DFIXED it is read with interrupts off. */
#include <avr/interrupt.h>
#include <avr/io.h>
#include <util/atomic.h>
static volatile uint16_t sum = 0x00F0;
static uint8_t samples[64];
static volatile uint8_t seed;
ISR(USART0_RX_vect)
{
    sum += UDR0;
}
static void put(char c)
{
    loop_until_bit_is_set(UCSR0A, UDRE0);
    UDR0 = c;
}
static void put_hex(uint8_t value)
{
    put("0123456789ABCDEF"[value >> 4]);
    put("0123456789ABCDEF"[value & 15]);
}
/* What main is busy with. */
static void filter(void)
{
    for (uint8_t i = 1; i < 64; i++) samples[i] = (samples[i] * 3 + samples[i - 1] + seed) >> 2;
    seed++;
}
static uint16_t get_sum(void)
{
    uint16_t seen;
#ifdef FIXED
    ATOMIC_BLOCK(ATOMIC_RESTORESTATE) seen = sum;
#else
    seen = sum;     /* the race */
#endif
    return seen;
}
int main(void)
{
    uint16_t shown = 0;
    UBRR0L = 3;
    UCSR0B = _BV(RXCIE0) | _BV(RXEN0) | _BV(TXEN0);
    sei();
    for (;;) {
        filter();
        uint16_t now = get_sum();
        if (now != shown) {
            shown = now;
            put_hex(now >> 8);
            put_hex(now);
            put('\n');
        }
    }
}
