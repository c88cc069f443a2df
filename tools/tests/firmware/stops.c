/* Stops where the read was torn, behind all that it writes. */
#include "serial.h"

volatile uint16_t count = 0xFF;
volatile uint8_t got;

ISR(USART0_RX_vect)
{
    put('k');
    while (!(UCSR0A & (1 << TXC0)))
        ;
    got = UDR0;
    count++;
}

int main(void)
{
    uart(1);
    sei();
    for (;;) {
        uint16_t c = count;
        if (c != 0xFF && c != 0x100)
            asm volatile("break");
    }
}
