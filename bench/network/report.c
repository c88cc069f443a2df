/* Writes "hi" and LF on USART0 (UBRR 47: 7,680 cycles a byte), waiting for UDRE before each byte, then sends one byte by its
   radio and samples the air once, and stays in a loop. The start-up copies the text to SRAM by ELPM.
   avr-gcc -mmcu=atmega128 -Os report.c -o report.elf
   avr-objcopy -j .text -j .data -O ihex report.elf report.hex */
#include <avr/io.h>
static char text[] = "hi\n";
static uint8_t transfer(uint8_t byte)
{
    SPDR = byte;
    loop_until_bit_is_set(SPSR, SPIF);
    return SPDR;
}
int main(void)
{
    DDRB = _BV(PB0) | _BV(PB1) | _BV(PB2);
    SPCR = _BV(SPE) | _BV(MSTR);
    UBRR0L = 47;
    UCSR0B = _BV(RXEN0) | _BV(TXEN0);
    for (const char *p = text; *p != 0; p++) {
        loop_until_bit_is_set(UCSR0A, UDRE0);
        UDR0 = *p;
    }
    transfer(0x01);
    transfer(bit_is_set(UCSR0A, RXC0) ? UDR0 : 0x55);
    transfer(0x02);
    for (uint8_t i = 0; i < 3; i++) transfer(0);
    for (;;) { }
}
