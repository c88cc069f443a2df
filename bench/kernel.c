/* A small kernel: timer 0 ticks every 1,024 cycles, and of four tasks each runs in its own period.
   avr-gcc -mmcu=atmega128 -Os -o kernel.elf kernel.c && avr-objcopy -O ihex kernel.elf kernel.hex */
#include <avr/interrupt.h>
#include <avr/io.h>
#include <stdint.h>

typedef struct {
    void (*run)(void);
    uint16_t period;
    uint16_t left;
} Task;

static volatile uint8_t ticks;
static volatile uint32_t sum;
static uint8_t buffer[64];

ISR(TIMER0_COMP_vect)
{
    ticks++;
}

static void blink(void)
{
    PORTA ^= 1;
}

static void fill(void)
{
    for (uint8_t i = 0; i < sizeof buffer; i++)
        buffer[i] = buffer[i] * 5 + i;
}

static void add_up(void)
{
    uint32_t s = 0;
    for (uint8_t i = 0; i < sizeof buffer; i++)
        s += (uint32_t)buffer[i] << (i % 8);
    sum += s;
}

static void mix(void)
{
    uint16_t crc = 0xFFFF;
    for (uint8_t i = 0; i < sizeof buffer; i++) {
        crc ^= (uint16_t)buffer[i] << 8;
        for (uint8_t bit = 0; bit < 8; bit++)
            crc = crc & 0x8000 ? crc << 1 ^ 0x1021 : crc << 1;
    }
    PORTC = crc >> 8;
}

static Task tasks[] = { { blink, 2, 2 }, { fill, 3, 3 }, { add_up, 5, 5 }, { mix, 16, 16 } };

static void tick(void)
{
    for (uint8_t i = 0; i < sizeof tasks / sizeof *tasks; i++) {
        if (--tasks[i].left == 0) {
            tasks[i].left = tasks[i].period;
            tasks[i].run();
        }
    }
}

int main(void)
{
    uint8_t seen = 0;
    OCR0 = 127;
    TIMSK = 1 << OCIE0;
    TCCR0 = 1 << WGM01 | 2;
    sei();
    for (;;) {
        if (seen != ticks) {
            seen++;
            tick();
        }
    }
}
