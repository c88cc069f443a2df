/* Writes nothing to USART0, whatever the torn read gives. */
#include "serial.h"

volatile uint16_t count = 0xFF;
volatile uint8_t got, torn;

ISR(USART0_RX_vect)
{
    got = UDR0;
    count++;
}

int main(void)
{
    uart(1);
    sei();
    for (;;) {
        uint16_t c = count;
        if (c != 0xFF && c != 0x100)
            torn++;
    }
}
