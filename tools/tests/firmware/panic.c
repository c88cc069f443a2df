/* A call chain that ends in a function which does not return. */
#include <avr/io.h>
#include <stdint.h>

volatile uint8_t k;

__attribute__((noreturn, noinline)) void panic(uint8_t n)
{
    for (;;)
        k += n;
}

void check(uint8_t x);

__attribute__((noinline)) void b(uint8_t x)
{
    k ^= x;
    check(x + 1);
    k++;
}

__attribute__((noinline)) void a(uint8_t x)
{
    b(x + 2);
    k--;
}

__attribute__((noinline)) void check(uint8_t x)
{
    k = x;
    panic(x);
}

int main(void)
{
    a(1);
    a(2);
    for (;;)
        ;
}
