/* The byte radio of a node from C, polled. It is the slave on the node's SPI: it moves one byte with each transfer,
   takes a command and then answers for it (docs/FIRMWARE.md; the whole table stands in docs/AIR.md).
   A sample looks at the air in one cycle. Whoever samples at least twice in a byte time (a scenario's `byte_time`)
   misses no byte, and `radio_hear` gives each of them once. No interrupt may use the radio while these calls do. */
#ifndef RADIO_H
#define RADIO_H
#include <avr/io.h>
#include <stdbool.h>
#include <stdint.h>
enum { RADIO_SEND = 0x01, RADIO_SAMPLE = 0x02 };                        /* commands */
enum { RADIO_NOTHING = 0, RADIO_ONE_BYTE = 1, RADIO_CLASH = 2 };        /* the status of a sample */
/* What a sample heard. Of a clash `byte` is the OR of all bytes; `age` says of one byte how long it has been heard, in
   units of 16 cycles, at most 255. */
struct radio_sample { uint8_t status, byte, age; };
/* Selects the radio (PB0 an output, and low) and makes the SPI its master at clock / 2, so a transfer takes 16 cycles.
   SCK is PB1 and MOSI PB2. */
static inline void radio_init(void)
{
    DDRB |= _BV(PB0) | _BV(PB1) | _BV(PB2);
    PORTB &= (uint8_t)~_BV(PB0);
    SPCR = _BV(SPE) | _BV(MSTR);
    SPSR = _BV(SPI2X);
}
/* Gives the radio a byte; its answer. */
static inline uint8_t radio_transfer(uint8_t byte)
{
    SPDR = byte;
    loop_until_bit_is_set(SPSR, SPIF);
    return SPDR;
}
/* Sends a byte. False where nothing was sent, because the byte before is still on the air. */
static inline bool radio_send(uint8_t byte)
{
    radio_transfer(RADIO_SEND);
    return radio_transfer(byte) == 0;
}
/* Sends a byte as soon as the byte before is no longer on the air; it waits for at most a byte time. */
static inline void radio_send_when_free(uint8_t byte)
{
    while (!radio_send(byte)) { }
}
/* Samples the air: what is heard in the cycle in which the command's transfer ends. */
static inline struct radio_sample radio_listen(void)
{
    struct radio_sample s;
    radio_transfer(RADIO_SAMPLE);
    s.status = radio_transfer(0);
    s.byte = radio_transfer(0);
    s.age = radio_transfer(0);
    return s;
}
/* Samples the air, and says whether a byte is heard that the sample before did not hear: the same byte has become
   older, a new one is younger. */
static inline bool radio_hear(struct radio_sample *s)
{
    static struct radio_sample before;
    *s = radio_listen();
    bool is_same = before.status == RADIO_ONE_BYTE && s->age > before.age;
    before = *s;
    return s->status == RADIO_ONE_BYTE && !is_same;
}
#endif
