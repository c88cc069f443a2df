/* Writes variables of each kind, in an order that the tests know. */
#include <avr/interrupt.h>
#include <avr/io.h>
#include <stdbool.h>
#include <stdint.h>

enum state { IDLE, BUSY = 5, LOST = 200 };

struct box {
    uint8_t count;
    int16_t level;
    enum state state;
    uint8_t low : 3, high : 5;
    uint8_t row[2][3];
};

volatile struct box box;
volatile uint16_t wide;
volatile float ratio;
volatile bool done;
volatile uint8_t ticks;
static volatile uint8_t *volatile where;

ISR(TIMER0_COMP_vect)
{
    ticks++;
}

static __attribute__((noinline)) void twice(uint8_t number)
{
    static volatile uint8_t last;
    last = number;
    box.count = 2 * number;
}

int main(void)
{
    wide = 0x00FF;
    wide = 0x0100;
    twice(7);
    box.level = -300;
    box.state = BUSY;
    box.low = 5;
    box.high = 17;
    box.row[1][2] = 9;
    ratio = 0.5;
    where = &box.row[1][2];
    *where = 10;
    OCR0 = 99;
    TIMSK = _BV(OCIE0);
    TCCR0 = _BV(WGM01) | _BV(CS00);
    sei();
    while (ticks < 3)
        ;
    cli();
    done = true;
    PORTB = 0x21;
    for (;;)
        ;
}
