/* Sorts 32 pseudo-random bytes in SRAM, sums them up, and stays in a loop; with FOREVER it does so again and again,
   which is bench/mixed.hex. No device is used.
   avr-gcc -mmcu=atmega128 -Os -nostartfiles -Wl,-e,start [-DFOREVER] sort.c -o sort.elf
   avr-objcopy -j .text -j .data -O ihex sort.elf sort.hex */
#include <stdint.h>
static volatile uint8_t values[32];
static volatile uint16_t total;
static void __attribute__((noinline)) fill(uint8_t seed)
{
    for (uint8_t i = 0; i < 32; i++) { seed = (uint8_t)(seed * 73u + 41u); values[i] = seed; }
}
static void __attribute__((noinline)) sort(void)
{
    for (uint8_t i = 1; i < 32; i++) {
        uint8_t v = values[i];
        uint8_t j = i;
        while (j > 0 && values[j - 1] > v) { values[j] = values[j - 1]; j--; }
        values[j] = v;
    }
}
static uint16_t __attribute__((noinline)) sum(void)
{
    uint16_t s = 0;
    for (uint8_t i = 0; i < 32; i++) s += values[i];
    return s;
}
void __attribute__((naked, noreturn, section(".init0"))) start(void)
{
    __asm__ volatile("clr r1\n\tout 0x3f, r1\n\tldi r28, 0xff\n\tldi r29, 0x10\n\tout 0x3e, r29\n\tout 0x3d, r28\n\t");
#ifdef FOREVER
    uint8_t seed = 0;
    for (;;) { fill(seed++); sort(); total = sum(); }
#else
    for (;;) { fill(7); sort(); total = sum(); __asm__ volatile("1: rjmp 1b"); }
#endif
}
