/* A network with a race. Sensors send readings by radio to a sink, node 0, which writes what it hears to USART0. A byte that
   arrives at a sensor on USART0 is an alarm and goes the same way. Both wait in a queue: main puts readings into it and
   takes from it, the handler puts alarms. A handler that comes while main is in `enqueue` writes over main's entry or is
   not counted.
   All nodes run this program; the first byte that arrives at a node is its number. Timer 1 ticks each 1,536 cycles, half of
   the radio's byte time, and the sink samples the air with each tick. A sensor listens before it sends. With -DFIXED main
   puts with interrupts off. */
#include <avr/interrupt.h>
#include <avr/sleep.h>
#include <util/atomic.h>
#include "../radio.h"
enum { TICK = 1536, PERIOD = 128 };     /* cycles; ticks between two readings */
enum { SINK = 0, READING = 'r' };
enum { PREAMBLE = 0xAA, MARK = 0x7E, SILENCE = 4 };
struct record { uint8_t kind, value; };
enum { ENTRIES = 8 };
static volatile struct record queue[ENTRIES];
static volatile uint8_t first, queued;
static volatile uint8_t ticks;
static uint8_t number;
static void enqueue(uint8_t kind, uint8_t value)
{
    uint8_t place = (first + queued) % ENTRIES;
    if (queued == ENTRIES) return;
    queue[place].kind = kind;
    queue[place].value = value;
    queued++;
}
/* What the sink hears: the preamble, the mark, and a record with its sender. */
static enum { BEGIN, MARKED, SENDER, KIND, VALUE } expects;
static volatile uint8_t sender, kind, value, is_whole;
static uint8_t silent;
static void receive(uint8_t byte)
{
    switch (expects) {
    case BEGIN:
        if (byte == PREAMBLE) expects = MARKED;
        break;
    case MARKED:
        expects = byte == MARK ? SENDER : BEGIN;
        break;
    case SENDER:
        sender = byte;
        expects = KIND;
        break;
    case KIND:
        kind = byte;
        expects = VALUE;
        break;
    case VALUE:
        value = byte;
        is_whole = 1;
        expects = BEGIN;
        break;
    }
}
ISR(TIMER1_COMPA_vect)
{
    struct radio_sample s;
    ticks++;
    if (number != SINK) return;
    if (radio_hear(&s)) receive(s.byte);
    silent = s.status == RADIO_NOTHING ? silent + 1 : 0;
    if (s.status == RADIO_CLASH || silent == SILENCE) expects = BEGIN;
}
ISR(USART0_RX_vect)
{
    uint8_t code = UDR0;
    enqueue(code, ticks);
}
static void put(char c)
{
    loop_until_bit_is_set(UCSR0A, UDRE0);
    UDR0 = c;
}
static void sink(void)
{
    for (;;) {
        sleep_mode();
        if (!is_whole) continue;
        is_whole = 0;
        put('0' + sender);
        put(kind);
        put('\n');
    }
}
static void pause(uint8_t count)
{
    for (uint8_t start = ticks; (uint8_t)(ticks - start) < count;) sleep_mode();
}
/* Whether nobody is heard. One sample may fall between two bytes of a packet, so there are two. */
static bool is_free(void)
{
    if (radio_listen().status != RADIO_NOTHING) return false;
    pause(1);
    return radio_listen().status == RADIO_NOTHING;
}
static void send_first(void)
{
    while (!is_free()) pause(2 * number);
    radio_send_when_free(PREAMBLE);
    radio_send_when_free(MARK);
    radio_send_when_free(number);
    radio_send_when_free(queue[first].kind);
    radio_send_when_free(queue[first].value);
    ATOMIC_BLOCK(ATOMIC_RESTORESTATE) {
        first = (first + 1) % ENTRIES;
        queued--;
    }
}
static void sensor(void)
{
    uint8_t start = ticks;
    UCSR0B |= _BV(RXCIE0);
    for (;;) {
        sleep_mode();
        if ((uint8_t)(ticks - start) >= PERIOD) {
            start += PERIOD;
#ifdef FIXED
            ATOMIC_BLOCK(ATOMIC_RESTORESTATE) enqueue(READING, ticks);
#else
            enqueue(READING, ticks);    /* the race */
#endif
        }
        while (queued) send_first();
    }
}
int main(void)
{
    radio_init();
    UBRR0L = 3;
    UCSR0B = _BV(RXEN0) | _BV(TXEN0);
    loop_until_bit_is_set(UCSR0A, RXC0);
    number = UDR0;
    OCR1A = TICK - 1;
    TIMSK = _BV(OCIE1A);
    TCCR1B = _BV(WGM12) | _BV(CS10);
    set_sleep_mode(SLEEP_MODE_IDLE);
    sei();
    if (number == SINK) sink();
    sensor();
}
