/* Sends each byte received on USART0 back (UBRR 47: 7,680 cycles a byte), through a ring of seven bytes that the
   receive interrupt fills and the data register interrupt empties; a byte that finds the ring full is lost. Asleep
   (idle) between.
   avr-gcc -mmcu=atmega128 -Os echo.c -o echo.elf
   avr-objcopy -j .text -j .data -O ihex echo.elf echo.hex */
#include <avr/interrupt.h>
#include <avr/io.h>
#include <avr/sleep.h>
static volatile uint8_t ring[8];
static volatile uint8_t head, tail;
ISR(USART0_RX_vect)
{
    uint8_t byte = UDR0;
    uint8_t next = (head + 1) & 7;
    if (next == tail) return;
    ring[head] = byte;
    head = next;
    UCSR0B |= _BV(UDRIE0);
}
ISR(USART0_UDRE_vect)
{
    uint8_t at = tail;
    if (at == head) {
        UCSR0B &= (uint8_t)~_BV(UDRIE0);
        return;
    }
    UDR0 = ring[at];
    tail = (at + 1) & 7;
}
int main(void)
{
    UBRR0H = 0;
    UBRR0L = 47;
    UCSR0B = _BV(RXCIE0) | _BV(RXEN0) | _BV(TXEN0);
    set_sleep_mode(SLEEP_MODE_IDLE);
    sei();
    for (;;) sleep_mode();
}
