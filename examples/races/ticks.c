/* Race: main reads a time of 16 bits in two halves, and the timer's handler that counts it may come between them. The
   byte on USART0 that asks for the time interrupts nothing of importance: it only says when main reads.
   The time is in ticks of 500 cycles. With -DFIXED it is read with interrupts off. */
#include <avr/interrupt.h>
#include <avr/io.h>
#include <avr/sleep.h>
#include <util/atomic.h>
static volatile uint16_t ticks;
static volatile uint8_t asked;
ISR(USART0_RX_vect)
{
    asked = UDR0;
}
ISR(TIMER1_COMPA_vect)
{
    ticks++;
}
static void put(char c)
{
    loop_until_bit_is_set(UCSR0A, UDRE0);
    UDR0 = c;
}
static void put_hex(uint8_t value)
{
    put("0123456789ABCDEF"[value >> 4]);
    put("0123456789ABCDEF"[value & 15]);
}
static uint16_t get_ticks(void)
{
    uint16_t seen;
#ifdef FIXED
    ATOMIC_BLOCK(ATOMIC_RESTORESTATE) seen = ticks;
#else
    seen = ticks;   /* the race */
#endif
    return seen;
}
int main(void)
{
    UBRR0L = 3;
    UCSR0B = _BV(RXCIE0) | _BV(RXEN0) | _BV(TXEN0);
    OCR1A = 499;
    TIMSK = _BV(OCIE1A);
    TCCR1B = _BV(WGM12) | _BV(CS10);
    set_sleep_mode(SLEEP_MODE_IDLE);
    sleep_enable();
    sei();
    for (;;) {
        cli();
        if (!asked) {
            sei();
            sleep_cpu();
            continue;
        }
        asked = 0;
        sei();
        uint16_t now = get_ticks();
        put_hex(now >> 8);
        put_hex(now);
        put('\n');
    }
}
