/* USART0 of a firmware that a sweep moves bytes of. */
#include <avr/interrupt.h>
#include <avr/io.h>
#include <avr/sleep.h>
#include <stdint.h>

static inline void uart(uint8_t receives_by_interrupt)
{
    UBRR0L = 0;
    UCSR0B = (1 << RXEN0) | (1 << TXEN0) | (receives_by_interrupt ? (1 << RXCIE0) : 0);
}

static void put(uint8_t c)
{
    while (!(UCSR0A & (1 << UDRE0)))
        ;
    UDR0 = c;
}
