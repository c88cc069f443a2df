/* Does what the bytes tell that arrive on USART0: it waits 16 cycles times the number in bits 4 to 0; then with bit 7 it
   sends by its radio, with bit 6 it samples the air, and with bit 5 it writes to USART0. What it sends and writes goes by
   what it heard so far. So a scenario's inputs say when its nodes send and sample. Asleep (idle) between.
   avr-gcc -mmcu=atmega128 -Os net.c -o net.elf
   avr-objcopy -j .text -j .data -O ihex net.elf net.hex */
#include <avr/interrupt.h>
#include <avr/io.h>
#include <avr/sleep.h>
#include <util/delay_basic.h>
static uint8_t transfer(uint8_t byte)
{
    SPDR = byte;
    loop_until_bit_is_set(SPSR, SPIF);
    return SPDR;
}
static uint8_t last;
ISR(USART0_RX_vect)
{
    uint8_t order = UDR0;
    if (order & 31) _delay_loop_2((order & 31) * 4);
    if (order & 0x80) {
        transfer(0x01);
        transfer(order ^ last);
    }
    if (order & 0x40) {
        transfer(0x02);
        transfer(0);
        last += transfer(0);
        transfer(0);
    }
    if (order & 0x20) UDR0 = last;
}
int main(void)
{
    DDRB = _BV(PB0) | _BV(PB1) | _BV(PB2);
    SPCR = _BV(SPE) | _BV(MSTR);
    SPSR = _BV(SPI2X);
    UBRR0L = 3;
    UCSR0B = _BV(RXCIE0) | _BV(RXEN0) | _BV(TXEN0);
    set_sleep_mode(SLEEP_MODE_IDLE);
    sei();
    for (;;) sleep_mode();
}
