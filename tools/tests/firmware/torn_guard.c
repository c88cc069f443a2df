/* A 16-bit read that an interrupt can tear, beside a guard that saves and writes back SREG: at -O0 by a pointer. */
#include "serial.h"

volatile uint16_t count = 0x00FF, guarded_count;
volatile uint8_t got;

ISR(USART0_RX_vect)
{
    got = UDR0;
    count += 1;
}

static void guarded(void)
{
    uint8_t s = SREG;
    cli();
    guarded_count++;
    SREG = s;
}

int main(void)
{
    uart(1);
    sei();
    for (;;) {
        guarded();
        uint16_t c = count;
        if (c != 0x00FF && c != 0x0100) {
            put('!');
            count = 0xFF;
        }
        if (got) {
            put('k');
            got = 0;
        }
    }
}
