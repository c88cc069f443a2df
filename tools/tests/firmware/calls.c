/* Calls, and interrupts that come between a call and the first instruction of what is called. */
#include <avr/interrupt.h>
#include <avr/io.h>
#include <stdint.h>

volatile uint8_t k;

ISR(TIMER0_COMP_vect)
{
    k++;
}

__attribute__((noinline)) void f(void)
{
    k += 2;
}

__attribute__((noinline)) void g(void)
{
    f();
    f();
}

int main(void)
{
    OCR0 = 92;
    TCCR0 = (1 << WGM01) | 1;
    TIMSK = 1 << OCIE0;
    sei();
    for (;;)
        g();
}
