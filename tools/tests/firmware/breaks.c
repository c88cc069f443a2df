/* Waits for a byte on USART0, and stops for good. */
#include <avr/io.h>

volatile uint8_t got;

int main(void)
{
    UBRR0L = 1;
    UCSR0B = 1 << RXEN0;
    while (!(UCSR0A & 1 << RXC0))
        ;
    got = UDR0;
    asm volatile("break");
    for (;;)
        ;
}
