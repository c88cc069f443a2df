/* Writes "hello, air" and LF (hello.txt) on USART0 (UBRR 47, eight data bits, one stop bit: 7,680 cycles a byte),
   waiting for UDRE before each byte, then stays in a loop. The start-up copies the first word of the text to SRAM by
   ELPM; the rest is read by LPM.
   avr-gcc -mmcu=atmega128 -Os hello.c -o hello.elf
   avr-objcopy -j .text -j .data -O ihex hello.elf hello.hex */
#include <avr/io.h>
#include <avr/pgmspace.h>
static const char rest[] PROGMEM = ", air\n";
static char first[] = "hello";
static void put(char c)
{
    loop_until_bit_is_set(UCSR0A, UDRE0);
    UDR0 = c;
}
int main(void)
{
    UBRR0H = 0;
    UBRR0L = 47;
    UCSR0B = _BV(TXEN0);
    for (const char *p = first; *p != 0; p++) put(*p);
    for (const char *p = rest; pgm_read_byte(p) != 0; p++) put(pgm_read_byte(p));
    for (;;) { }
}
