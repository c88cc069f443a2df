/* A copy of SREG on the stack whose I is set by a pointer before it is written back. */
#include "serial.h"

volatile uint8_t k, got;

ISR(USART0_RX_vect)
{
    got = UDR0;
    k += 9;
}

int main(void)
{
    uart(1);
    cli();
    for (;;) {
        k++;
        asm volatile("in r24,0x3f\n push r24\n in r30,0x3d\n in r31,0x3e\n ldd r25,Z+1\n ori r25,0x80\n std Z+1,r25\n"
                     "pop r24\n out 0x3f,r24\n nop\n nop\n nop\n nop\n cli" ::: "r24", "r25", "r30", "r31");
        if (got) {
            put(k);
            got = 0;
        }
    }
}
