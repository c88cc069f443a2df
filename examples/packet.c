/* Sensors send packets by radio, and a sink writes what it hears to USART0 (UBRR 3: 115,200 bauds at 7.3728 MHz, 640
   cycles a byte). All nodes run this program; the first byte that arrives at a node on USART0 is its number, and node
   0 is the sink (packet.toml).
   A packet is AA AA 7E n and n bytes of payload, n from 1 to 32: here the sensor's number, the packet's, a reading.
   Timer 1 (CTC) ticks each 1,536 cycles, half of the radio's byte time: the sink samples with each tick, and so misses
   no byte. A sensor listens before it sends, and waits while somebody is heard. Asleep (idle) between.
   avr-gcc -mmcu=atmega128 -Os packet.c -o packet.elf
   avr-objcopy -j .text -j .data -O ihex packet.elf packet.hex */
#include <avr/interrupt.h>
#include <avr/sleep.h>
#include <stdlib.h>
#include "radio.h"
enum { TICK = 1536, PAUSE = 96 };       /* cycles; ticks between two packets, 20 ms */
enum { SINK = 0 };
enum { PREAMBLE = 0xAA, MARK = 0x7E, LONGEST = 32, SILENCE = 4 };
struct packet { uint8_t length, payload[LONGEST]; };
static uint8_t number;
static volatile uint8_t ticks;
/* The packet that the sink's interrupt hears, and the last whole one, which `main` writes. */
static struct packet coming;
static volatile struct packet whole;
static volatile bool has_whole;
/* What the next byte is: of the preamble, the mark behind it, the length, or payload. */
static enum { FIRST, SECOND, MARKED, COUNT, PAYLOAD } expects;
static uint8_t got, silent;
static void receive(uint8_t byte)
{
    switch (expects) {
    case FIRST:
        if (byte == PREAMBLE) expects = SECOND;
        break;
    case SECOND:
        expects = byte == PREAMBLE ? MARKED : FIRST;
        break;
    case MARKED:
        if (byte == MARK) expects = COUNT;
        else if (byte != PREAMBLE) expects = FIRST;
        break;
    case COUNT:
        coming.length = byte;
        got = 0;
        expects = byte >= 1 && byte <= LONGEST ? PAYLOAD : FIRST;
        break;
    case PAYLOAD:
        coming.payload[got++] = byte;
        if (got < coming.length) break;
        expects = FIRST;
        if (has_whole) break;   /* the one before is not written yet: this one is lost */
        whole = coming;
        has_whole = true;
        break;
    }
}
/* Two samples a byte time. A clash, or a silence of four samples, ends the packet that was coming. */
static void hear(void)
{
    struct radio_sample s;
    if (radio_hear(&s)) receive(s.byte);
    silent = s.status == RADIO_NOTHING ? silent + 1 : 0;
    if (s.status == RADIO_CLASH || silent == SILENCE) {
        expects = FIRST;
        silent = 0;
    }
}
ISR(TIMER1_COMPA_vect)
{
    ticks++;
    if (number == SINK) hear();
}
static void put(const char *text)
{
    for (; *text != 0; text++) {
        loop_until_bit_is_set(UCSR0A, UDRE0);
        UDR0 = *text;
    }
}
static void put_decimal(uint8_t value)
{
    char digits[4];
    put(utoa(value, digits, 10));
}
static void sink(void)
{
    for (;;) {
        sleep_mode();
        if (!has_whole) continue;
        put("from ");
        put_decimal(whole.payload[0]);
        put(" packet ");
        put_decimal(whole.payload[1]);
        put(": ");
        put_decimal(whole.payload[2]);
        put("\n");
        has_whole = false;
    }
}
static void pause(uint8_t count)
{
    for (uint8_t start = ticks; (uint8_t)(ticks - start) < count;) sleep_mode();
}
/* Whether nobody is heard. One sample may fall between two bytes of a packet, so there are two. */
static bool is_free(void)
{
    if (radio_listen().status != RADIO_NOTHING) return false;
    pause(1);
    return radio_listen().status == RADIO_NOTHING;
}
static void send_packet(const struct packet *p)
{
    radio_send_when_free(PREAMBLE);
    radio_send_when_free(PREAMBLE);
    radio_send_when_free(MARK);
    radio_send_when_free(p->length);
    for (uint8_t i = 0; i < p->length; i++) radio_send_when_free(p->payload[i]);
}
static void sensor(void)
{
    struct packet p = { 3, { number, 0, 20 + number } };
    for (;;) {
        pause(PAUSE);
        while (!is_free()) pause(2 * number);
        send_packet(&p);
        p.payload[1]++;
        p.payload[2] += p.payload[1] & 1;
    }
}
/* The first byte that arrives; one that arrives before the receiver is enabled is lost. */
static uint8_t own_number(void)
{
    loop_until_bit_is_set(UCSR0A, RXC0);
    return UDR0;
}
int main(void)
{
    radio_init();
    UBRR0L = 3;
    UCSR0B = _BV(RXEN0) | _BV(TXEN0);
    number = own_number();
    OCR1A = TICK - 1;
    TIMSK = _BV(OCIE1A);
    TCCR1B = _BV(WGM12) | _BV(CS10);
    set_sleep_mode(SLEEP_MODE_IDLE);
    sei();
    if (number == SINK) sink();
    sensor();
}
