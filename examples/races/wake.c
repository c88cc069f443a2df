/* Race: main finds no work and then sleeps; a byte that comes between the two is served only after the next tick of the
   timer, 256,000 cycles later at worst.
   Each byte on USART0 is written back at once. With -DFIXED main looks with interrupts off, and the instruction before
   the sleep turns them on, so nothing comes between. */
#include <avr/interrupt.h>
#include <avr/io.h>
#include <avr/sleep.h>
static volatile uint8_t command, tick;
static uint8_t samples[64];
ISR(USART0_RX_vect)
{
    command = UDR0;
}
ISR(TIMER1_COMPA_vect)
{
    tick = 1;
}
static void put(char c)
{
    loop_until_bit_is_set(UCSR0A, UDRE0);
    UDR0 = c;
}
/* What main is busy with after each tick. */
static void filter(void)
{
    for (uint8_t i = 1; i < 64; i++) samples[i] = (samples[i] * 3 + samples[i - 1] + i) >> 2;
}
int main(void)
{
    UBRR0L = 3;
    UCSR0B = _BV(RXCIE0) | _BV(RXEN0) | _BV(TXEN0);
    OCR1A = 3999;
    TIMSK = _BV(OCIE1A);
    TCCR1B = _BV(WGM12) | _BV(CS11) | _BV(CS10);    /* clock / 64 */
    set_sleep_mode(SLEEP_MODE_IDLE);
    sleep_enable();
    sei();
    for (;;) {
        if (tick) {
            tick = 0;
            filter();
        }
        if (command) {
            put(command);
            command = 0;
        }
#ifdef FIXED
        cli();
        if (!tick && !command) {
            sei();
            sleep_cpu();
        }
        sei();
#else
        if (!tick && !command) sleep_cpu();     /* the race */
#endif
    }
}
