/* Events travel from six leaves over two relays to a sink: a network of nine with five faults, each of which shows once in
   a while (docs/HUNTING.md). Made with -DFIXED it has none; with -DFIXED=0x1D, for instance, the second alone is left.
   Node 0 is the sink, 1 and 2 are relays, 3 to 8 leaves; all run this program. The first byte that arrives at a node on
   USART0 is its number, each further one at a leaf is an event. The sink writes a line for each: the leaf and the event.
   A packet is AA 7E n, n bytes, and their sum. A leaf sends an event to its relay and waits for the answer; it sends again
   where none comes, and after two times by the other relay. A round begins with a beacon of the sink, which all hear: first
   leaves send to relays, then each relay sends one packet to the sink in a slot of its own, until the sink answers. Relays
   and the sink sample all the time; a leaf that has nothing to do stops its timer and sleeps until an event comes. */
#include <avr/interrupt.h>
#include <avr/sleep.h>
#include <util/atomic.h>
#include "radio.h"
#ifndef FIXED
#define FIXED 0
#endif
enum { GROWS = 1, OTHER_WAY = 2, ANSWERS = 4, ONE_PLACE = 8, WAKE = 16 };     /* the faults */
enum { TICK = 768 };                    /* cycles: two samples a byte time of 1,536 */
enum { SINK = 0, RELAYS = 2, NODES = 9 };
enum { PREAMBLE = 0xAA, MARK = 0x7E, LONGEST = 12, SILENCE = 6 };
enum { DATA = 'D', ANSWER = 'A', BEACON = 'B' };
enum { ROUND = 300, OPEN = 138, FIRST_SLOT = 160, SLOT_TICKS = 62, PACKET_TICKS = 46 };    /* ticks */
enum { PATIENCE = 60, TRIES_A_WAY = 2 };
/* What is sent over the air: the kind, to whom, from whom, whose events these are, their number, the events. */
struct packet { uint8_t length, kind, to, from, origin, serial, events[LONGEST - 5]; };
enum { HEAD = 5 };
static uint8_t number;
static volatile uint16_t ticks;
static volatile uint16_t beacon;        /* the tick in which the round began, once a beacon was heard */
static volatile bool has_beacon;
/* On the way out: `left` bytes of `out` are still to be sent. */
static uint8_t out[LONGEST + 4];
static volatile uint8_t out_next, out_left;
/* On the way in. */
static struct packet coming;
static uint8_t got, sum, silent;
static enum { FIRST, SECOND, COUNT, PAYLOAD, CHECK } expects;
static volatile bool is_quiet;
/* Handed over to main: a packet for this node, or that its own was answered. */
static struct packet inbox;
static volatile bool has_inbox, is_answered;
static volatile uint8_t answered_serial;
/* Events of a leaf that no packet has yet. */
static volatile uint8_t events[8], event_count;
static uint8_t last_of[NODES];          /* the number of the last packet of each leaf that was taken here */
static uint8_t seen_of[NODES];          /* which of the last eight were: bit 0 is the last */
static uint8_t last_by[RELAYS + 1][NODES];

static void put_out(const struct packet *p)
{
    uint8_t total = 0, n = 0;
    const uint8_t *bytes = &p->kind;
    out[n++] = PREAMBLE;
    out[n++] = MARK;
    out[n++] = p->length;
    for (uint8_t i = 0; i < p->length; i++) {
        out[n++] = bytes[i];
        total += bytes[i];
    }
    out[n++] = total;
    out_next = 0;
    out_left = n;
}
static void answer(const struct packet *p)
{
    struct packet a = { HEAD, ANSWER, p->from, number, p->origin, p->serial, { 0 } };
    put_out(&a);
}
/* A whole packet is here. */
static void take(void)
{
    if (coming.kind == BEACON) {
        beacon = ticks;
        has_beacon = true;
    }
    if (coming.kind == ANSWER && (!(FIXED & ANSWERS) || coming.to == number)) {    /* fault: it may be another's */
        answered_serial = coming.serial;
        is_answered = true;
    }
    if (coming.to != number || coming.kind != DATA) return;
    if ((FIXED & ONE_PLACE) && has_inbox) return;       /* no answer: the leaf sends it again */
    if (number != SINK && (!has_beacon || ticks - beacon > OPEN)) return;
    answer(&coming);
    inbox = coming;                                     /* fault: over one that main has not taken */
    has_inbox = true;
}
static void receive(uint8_t byte)
{
    switch (expects) {
    case FIRST:
        if (byte == PREAMBLE) expects = SECOND;
        break;
    case SECOND:
        expects = byte == MARK ? COUNT : FIRST;
        break;
    case COUNT:
        coming.length = byte;
        got = sum = 0;
        expects = byte >= 1 && byte <= LONGEST ? PAYLOAD : FIRST;
        break;
    case PAYLOAD:
        (&coming.kind)[got++] = byte;
        sum += byte;
        if (got == coming.length) expects = CHECK;
        break;
    case CHECK:
        expects = FIRST;
        if (byte == sum) take();
        break;
    }
}
static void hear(void)
{
    struct radio_sample s;
    if (radio_hear(&s)) receive(s.byte);
    silent = s.status == RADIO_NOTHING ? (silent < 255 ? silent + 1 : silent) : 0;
    is_quiet = silent >= SILENCE;
    if (s.status == RADIO_CLASH || silent >= SILENCE) expects = FIRST;
}
ISR(TIMER1_COMPA_vect)
{
    ticks++;
    if (ticks - beacon >= ROUND) beacon += ROUND;       /* a beacon may be lost */
    if (out_left == 0) {
        hear();
    } else if (radio_send(out[out_next])) {
        out_next++;
        out_left--;
        silent = 0;
    }
}
ISR(USART0_RX_vect)
{
    uint8_t byte = UDR0;
    if (event_count < sizeof events) events[event_count++] = byte;
}
static uint16_t now(void)
{
    uint16_t t;
    ATOMIC_BLOCK(ATOMIC_RESTORESTATE) t = ticks;
    return t;
}
static uint16_t since_beacon(void)
{
    uint16_t t;
    ATOMIC_BLOCK(ATOMIC_RESTORESTATE) t = ticks - beacon;
    return t;
}
static void nap(uint16_t count)
{
    for (uint16_t start = now(); now() - start < count;) sleep_mode();
}
/* A number from 1 to 16, of its own at each node, so that two that meet do not meet each time. */
static uint8_t drawn(void)
{
    static uint8_t noise;
    if (noise == 0) noise = 37 * number + 1;
    noise = noise >> 1 ^ (noise & 1 ? 0xB8 : 0);
    return 1 + (noise & 15);
}
/* Sends a packet of a leaf, while it is the turn of leaves and nobody is heard. */
static void say(const struct packet *p)
{
    do {
        nap(drawn());
    } while (!has_beacon || since_beacon() > OPEN - PACKET_TICKS || !is_quiet);
    ATOMIC_BLOCK(ATOMIC_RESTORESTATE) put_out(p);
    while (out_left) sleep_mode();
}
static void put(uint8_t byte)
{
    loop_until_bit_is_set(UCSR0A, UDRE0);
    UDR0 = byte;
}
/* Takes what the interrupt handed over. */
static bool received(struct packet *p)
{
    bool is_there = false;
    ATOMIC_BLOCK(ATOMIC_RESTORESTATE) {
        if (has_inbox) {
            *p = inbox;
            has_inbox = false;
            is_there = true;
        }
    }
    return is_there;
}
/* Whether the sink has not had this packet, by whichever relay; packets may pass each other on their ways. */
static bool is_new(const struct packet *p)
{
    if (!(FIXED & OTHER_WAY)) {                         /* fault: it has not had it by this relay */
        bool is_other = last_by[p->from][p->origin] != p->serial;
        last_by[p->from][p->origin] = p->serial;
        return is_other;
    }
    int8_t ahead = p->serial - last_of[p->origin];
    if (ahead > 0) {
        seen_of[p->origin] = (ahead < 8 ? seen_of[p->origin] << ahead : 0) | 1;
        last_of[p->origin] = p->serial;
        return true;
    }
    uint8_t bit = ahead > -8 ? 1 << -ahead : 0;
    bool is_here = bit == 0 || (seen_of[p->origin] & bit);
    seen_of[p->origin] |= bit;
    return !is_here;
}
static void sink(void)
{
    struct packet p, b = { HEAD, BEACON, 0xFF, SINK, SINK, 0, { 0 } };
    for (;;) {
        b.serial++;
        ATOMIC_BLOCK(ATOMIC_RESTORESTATE) put_out(&b);
        for (uint16_t start = now(); now() - start < ROUND;) {
            sleep_mode();
            if (!received(&p) || !is_new(&p)) continue;
            for (uint8_t i = 0; i + HEAD < p.length; i++) {
                put('0' + p.origin);
                put(p.events[i]);
                put('\n');
            }
        }
    }
}
/* Whether a packet that is begun now is answered before this relay's slot ends. */
static bool is_in_slot(void)
{
    uint16_t since = since_beacon(), first = FIRST_SLOT + (number - 1) * SLOT_TICKS;
    return since >= first && since < first + SLOT_TICKS - PACKET_TICKS;
}
/* Whether the packet is answered, for as long as an answer takes. */
static bool was_answered(const struct packet *p)
{
    for (uint16_t start = now(); now() - start < PATIENCE;) {
        sleep_mode();
        if (is_answered && answered_serial == p->serial) return true;
    }
    return false;
}
static void relay(void)
{
    struct packet p;
    for (;;) {
        sleep_mode();
        if (!received(&p) || last_of[p.origin] == p.serial) continue;
        last_of[p.origin] = p.serial;
        p.to = SINK;
        p.from = number;
        do {
            while (!is_in_slot() || out_left) sleep_mode();
            is_answered = false;
            ATOMIC_BLOCK(ATOMIC_RESTORESTATE) put_out(&p);
            while (out_left) sleep_mode();
        } while (!was_answered(&p));
    }
}
/* Moves events that came into a packet; how many. */
static uint8_t take_events(struct packet *p)
{
    uint8_t count = 0;
    ATOMIC_BLOCK(ATOMIC_RESTORESTATE) {
        while (count < event_count && p->length < LONGEST) p->events[p->length++ - HEAD] = events[count++];
        for (uint8_t i = count; i < event_count; i++) events[i - count] = events[i];
        event_count -= count;
    }
    return count;
}
static void deliver(struct packet *p)
{
    uint8_t way = p->to;
    for (uint8_t tries = 0;; tries++) {
        p->to = tries / TRIES_A_WAY % 2 ? 3 - way : way;
        is_answered = false;
        say(p);
        if (was_answered(p)) return;
        if (!(FIXED & GROWS)) take_events(p);           /* fault: its number is that of the shorter one */
    }
}
static void leaf(void)
{
    struct packet p = { HEAD, DATA, 0, number, number, 0, { 0 } };
    for (;;) {
        TIMSK = 0;
        if (FIXED & WAKE) {
            cli();
            if (event_count == 0) {
                sleep_enable();
                sei();
                sleep_cpu();
                sleep_disable();
            }
            sei();
        } else if (event_count == 0) {
            sleep_mode();                               /* fault: an event may have come between */
        }
        if (event_count == 0) continue;
        TIMSK = _BV(OCIE1A);
        silent = 0;
        is_quiet = has_beacon = false;
        p.length = HEAD;
        p.serial++;
        p.to = 1 + number % RELAYS;
        take_events(&p);
        deliver(&p);
    }
}
int main(void)
{
    radio_init();
    UBRR0L = 1;
    UCSR0B = _BV(RXEN0) | _BV(TXEN0);
    loop_until_bit_is_set(UCSR0A, RXC0);
    number = UDR0;
    UCSR0B |= _BV(RXCIE0);
    OCR1A = TICK - 1;
    TCCR1B = _BV(WGM12) | _BV(CS10);
    TIMSK = _BV(OCIE1A);
    set_sleep_mode(SLEEP_MODE_IDLE);
    sei();
    if (number == SINK) sink();
    if (number <= RELAYS) relay();
    leaf();
}
