/* A peer to measure against: runs a raw image of program memory on libsimavr up to a cycle.
   peer IMAGE.bin CYCLES. Built by run.sh where Debian's libsimavr-dev is installed. */
#include <simavr/sim_avr.h>
#include <stdio.h>
#include <stdlib.h>
#include <string.h>

int main(int argc, char **argv)
{
    static unsigned char code[131072];
    if (argc != 3)
        return 2;
    FILE *f = fopen(argv[1], "rb");
    if (!f)
        return 3;
    memset(code, 0xFF, sizeof code);
    size_t n = fread(code, 1, sizeof code, f);
    fclose(f);
    avr_t *avr = avr_make_mcu_by_name("atmega128");
    avr_init(avr);
    avr->frequency = 7372800;
    avr_loadcode(avr, code, n, 0);
    avr->codeend = avr->flashend;
    unsigned long long limit = strtoull(argv[2], 0, 10);
    while (avr->cycle < limit && avr->state == cpu_Running)
        avr_run(avr);
    printf("%llu cycles\n", (unsigned long long)avr->cycle);
    return 0;
}
