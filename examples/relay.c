/* Passes bytes along a line of nodes. What arrives at a node on USART0 or over the air is sent on by its radio, and what
   came over the air is also written to USART0 (UBRR 47: 7,680 cycles a byte). All nodes run this program; who hears whom
   says the scenario (relay.toml).
   The radio is on the SPI (clock / 4, 32 cycles a transfer), selected by PB0 low. Timer 0 (CTC, clock / 32, 96 counts)
   ticks every 3,072 cycles, which is the radio's byte time: with one sample a tick each byte is heard once. Asleep (idle)
   between.
   avr-gcc -mmcu=atmega128 -Os relay.c -o relay.elf
   avr-objcopy -j .text -j .data -O ihex relay.elf relay.hex */
#include <avr/interrupt.h>
#include <avr/io.h>
#include <avr/sleep.h>
#include <stdbool.h>
enum { SEND = 0x01, SAMPLE = 0x02 };              /* the radio's commands */
enum { NOTHING = 0, ONE_BYTE = 1, CLASH = 2 };    /* what a sample heard */
struct sample { uint8_t status, byte, age; };
/* Bytes that are to be sent, oldest at tail; one that finds the ring full is lost. Only interrupts touch it. */
static uint8_t ring[8];
static uint8_t head, tail;
static void put(uint8_t byte)
{
    uint8_t next = (head + 1) & 7;
    if (next == tail) return;
    ring[head] = byte;
    head = next;
}
static uint8_t transfer(uint8_t byte)
{
    SPDR = byte;
    loop_until_bit_is_set(SPSR, SPIF);
    return SPDR;
}
static struct sample listen(void)
{
    struct sample s;
    transfer(SAMPLE);
    s.status = transfer(0);
    s.byte = transfer(0);
    s.age = transfer(0);
    return s;
}
/* False while the byte before is still on the air. */
static bool say(uint8_t byte)
{
    transfer(SEND);
    return transfer(byte) == 0;
}
ISR(USART0_RX_vect)
{
    put(UDR0);
}
ISR(TIMER0_COMP_vect)
{
    struct sample s = listen();
    if (s.status == ONE_BYTE) {
        put(s.byte);
        if (bit_is_set(UCSR0A, UDRE0)) UDR0 = s.byte;
    }
    if (tail != head && say(ring[tail])) tail = (tail + 1) & 7;
}
int main(void)
{
    DDRB = _BV(PB0) | _BV(PB1) | _BV(PB2);
    SPCR = _BV(SPE) | _BV(MSTR);
    UBRR0L = 47;
    UCSR0B = _BV(RXCIE0) | _BV(RXEN0) | _BV(TXEN0);
    OCR0 = 95;
    TIMSK = _BV(OCIE0);
    TCCR0 = _BV(WGM01) | _BV(CS01) | _BV(CS00);
    set_sleep_mode(SLEEP_MODE_IDLE);
    sei();
    for (;;) sleep_mode();
}
