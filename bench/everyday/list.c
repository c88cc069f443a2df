/* A linked list of forty nodes, reversed in place, then walked through. A round takes 10,003 cycles, on simavr too.
   avr-gcc -mmcu=atmega128 -Os -o list.elf list.c && avr-objcopy -j .text -j .data -O ihex list.elf list.hex */
#include "round.h"

typedef struct Node {
    struct Node *next;
    uint16_t value;
} Node;

static Node nodes[40];

static uint8_t list(void)
{
    Node *head = 0, *turned = 0;
    uint16_t sum = 0;
    for (uint8_t i = 0; i < 40; i++) {
        nodes[i].value = 3 * i;
        nodes[i].next = head;
        head = &nodes[i];
    }
    while (head) {
        Node *next = head->next;
        head->next = turned;
        turned = head;
        head = next;
    }
    for (Node *n = turned; n; n = n->next)
        sum = sum * 2 % 1009 + n->value;
    return turned == nodes && sum == 402;
}

AGAIN(list())
