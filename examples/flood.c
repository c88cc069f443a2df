/* Floods messages through a network; a message is a byte, its serial number. A node that hears a newer one than it had
   writes it to USART0 and, after a pause, sends it once; so it goes from neighbour to neighbour. Of two that send at once
   a node that hears both understands none, so nodes with odd numbers pause for a tick more.
   All nodes run this program. The first byte that arrives at a node on USART0 is its number, as set where it is
   installed; each further one is a message for it to flood (flood.toml).
   The radio is on the SPI (clock / 4), selected by PB0 low, and served by the SPI's interrupt: a tick of timer 1 (CTC,
   1,024 cycles, the radio's byte time) begins a sample, and a message that is due is sent behind it. Asleep (idle) between.
   avr-gcc -mmcu=atmega128 -Os flood.c -o flood.elf
   avr-objcopy -j .text -j .data -O ihex flood.elf flood.hex */
#include <avr/interrupt.h>
#include <avr/io.h>
#include <avr/sleep.h>
#include <stdbool.h>
enum { SEND = 0x01, SAMPLE = 0x02 };    /* the radio's commands */
enum { ONE_BYTE = 1 };                  /* the status of a sample that heard one byte */
/* What the next transfer that ends brings. */
static enum { IDLE, ASKED, STATUS, BYTE, AGE, TO_SEND, SENT } phase;
static uint8_t status, byte;
static bool has_number;
static uint8_t number;
static uint8_t message;     /* the newest; 0 for none */
static uint8_t pause;       /* ticks until it is sent on; 0 where it is not */
/* Takes a message up, if it is newer. Serial numbers go round: the newer is ahead by less than half of them. */
static void take(uint8_t m, uint8_t ticks)
{
    if ((int8_t)(uint8_t)(m - message) <= 0) return;
    message = m;
    pause = ticks;
    if (bit_is_set(UCSR0A, UDRE0)) UDR0 = m;
}
ISR(USART0_RX_vect)
{
    uint8_t b = UDR0;
    if (has_number) {
        take(b, 1);
    } else {
        number = b;
        has_number = true;
    }
}
ISR(TIMER1_COMPA_vect)
{
    phase = ASKED;
    SPDR = SAMPLE;
}
ISR(SPI_STC_vect)
{
    uint8_t in = SPDR;
    switch (phase) {
    case ASKED:
        phase = STATUS;
        SPDR = 0;
        break;
    case STATUS:
        status = in;
        phase = BYTE;
        SPDR = 0;
        break;
    case BYTE:
        byte = in;
        phase = AGE;
        SPDR = 0;
        break;
    case AGE:
        phase = IDLE;
        if (status == ONE_BYTE) take(byte, 1 + (number & 1));
        if (pause != 0 && --pause == 0) {
            phase = TO_SEND;
            SPDR = SEND;
        }
        break;
    case TO_SEND:
        phase = SENT;
        SPDR = message;
        break;
    case SENT:
        phase = IDLE;
        if (in != 0) pause = 1;     /* the byte before is still on the air: again with the next tick */
        break;
    case IDLE:
        break;
    }
}
int main(void)
{
    DDRB = _BV(PB0) | _BV(PB1) | _BV(PB2);
    SPCR = _BV(SPIE) | _BV(SPE) | _BV(MSTR);
    UBRR0L = 1;     /* 320 cycles a byte */
    UCSR0B = _BV(RXCIE0) | _BV(RXEN0) | _BV(TXEN0);
    OCR1A = 1023;
    TIMSK = _BV(OCIE1A);
    TCCR1B = _BV(WGM12) | _BV(CS10);
    set_sleep_mode(SLEEP_MODE_IDLE);
    sei();
    for (;;) sleep_mode();
}
