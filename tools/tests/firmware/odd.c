/* Programs of forms that are rare: compile with -DNAME for one of the names behind #ifdef. */
#include "serial.h"
#include <alloca.h>
#include <avr/eeprom.h>
#include <avr/pgmspace.h>
#include <avr/wdt.h>
#include <setjmp.h>
#include <stdio.h>
#include <stdlib.h>
#include <string.h>
#include <util/atomic.h>
#include <util/delay_basic.h>

#define KEPT __attribute__((noinline))
#define TICK (OCR0 = 61, TCCR0 = _BV(WGM01) | _BV(CS01), TIMSK |= _BV(OCIE0))
#define TOCK (OCR1A = 333, TCCR1B = _BV(WGM12) | _BV(CS10), TIMSK |= _BV(OCIE1A))
#define TACK (OCR3A = 411, TCCR3B = _BV(WGM32) | _BV(CS30), ETIMSK |= _BV(OCIE3A))
#define RECEIVES ISR(USART0_RX_vect) { got = UDR0; }
#define COUNTS ISR(TIMER0_COMP_vect) { count++; }
#define ANSWERS if (got) { put(got + (k & 3)); got = 0; }

volatile uint8_t k, got, n;
volatile uint16_t count;

#define FRAME(name, size) \
    static KEPT void name(void) { volatile uint8_t local[size]; local[k % size] = k; k += local[0]; }
FRAME(frame0, 2)
FRAME(frame1, 5)
FRAME(frame2, 40)

#ifdef naked_tick
RECEIVES
ISR(TIMER0_COMP_vect, ISR_NAKED)
{
    asm volatile("push r24\n in r24,0x3f\n push r24\n lds r24,count\n inc r24\n sts count,r24\n"
                 "pop r24\n out 0x3f,r24\n pop r24\n reti");
}
#define BEGIN TICK; sei();
#define STEP k ^= count;
#endif

#ifdef naked_receive
ISR(USART0_RX_vect, ISR_NAKED)
{
    asm volatile("push r24\n in r24,0x0c\n sts got,r24\n pop r24\n reti");
}
#define BEGIN sei();
#define STEP k++; asm volatile("nop");
#endif

#ifdef nested
RECEIVES
ISR(TIMER0_COMP_vect) { sei(); count++; k ^= 5; count ^= k; }
ISR(TIMER1_COMPA_vect, ISR_NOBLOCK) { count += 2; }
#define BEGIN TICK; TOCK; sei();
#define STEP k += 3;
#endif

#ifdef flag_in_t
RECEIVES
COUNTS
#define BEGIN TICK; sei();
#define STEP asm volatile("in r18,0x3f\n bst r18,7\n cli\n lds r18,k\n inc r18\n sts k,r18\n brtc 1f\n sei\n 1: nop" \
                          ::: "r18");
#endif

#ifdef branches_on_flag
RECEIVES
#define BEGIN sei();
#define STEP asm volatile("brid 1f\n cli\n lds r18,k\n inc r18\n sts k,r18\n sei\n rjmp 2f\n 1: nop\n 2: cli\n" \
                          "brie 3f\n nop\n 3: sei" ::: "r18");
#endif

#ifdef flag_toggled
RECEIVES
#define BEGIN sei();
#define STEP asm volatile("in r24,0x3f\n ldi r25,0x80\n eor r24,r25\n out 0x3f,r24\n nop\n nop\n in r24,0x3f\n" \
                          "eor r24,r25\n out 0x3f,r24\n cbr r24,0x80\n out 0x3f,r24\n sbr r24,0x80\n" \
                          "out 0x3f,r24" ::: "r24", "r25");
#endif

#ifdef flag_in_registers
RECEIVES
#define BEGIN sei();
#define STEP asm volatile("in r2,0x3f\n cli\n mov r3,r2\n swap r3\n swap r3\n lds r18,k\n inc r18\n sts k,r18\n" \
                          "out 0x3f,r3\n cli\n nop\n out 0x3f,r2" ::: "r2", "r3", "r18");
#endif

#ifdef flag_behind_frames
RECEIVES
#define BEGIN sei();
#define STEP frame2(); { uint8_t s = SREG; cli(); frame1(); frame0(); SREG = s; }
#endif

#ifdef flag_from_other_copy
RECEIVES
COUNTS
#define BEGIN TICK; sei();
/* two copies of SREG lie on the stack, and change places there */
#define STEP asm volatile("in r24,0x3f\n push r24\n cli\n in r24,0x3f\n push r24\n pop r25\n pop r24\n push r25\n" \
                          "push r24\n pop r25\n out 0x3f,r25\n nop\n pop r24\n out 0x3f,r24\n nop\n sei" \
                          ::: "r24", "r25");
#endif

#ifdef sei_by_reti
RECEIVES
#define BEGIN sei();
#define STEP cli(); k++; \
    asm volatile("ldi r30,pm_lo8(1f)\n ldi r31,pm_hi8(1f)\n push r30\n push r31\n reti\n 1: nop" ::: "r30", "r31");
#endif

#ifdef jump_table
RECEIVES
COUNTS
#define BEGIN TICK; sei();
#define STEP switch (n++ % 11) { \
    case 0: k += 1; frame0(); break; case 1: k ^= 2; frame1(); break; case 2: k -= 3; frame2(); break; \
    case 3: k |= 4; break; case 4: k += 5; frame0(); break; case 5: k ^= 6; break; case 6: k -= 7; break; \
    case 7: k |= 8; frame1(); break; case 8: k += 9; break; case 9: k ^= 10; break; case 10: put('x'); }
#endif

#ifdef routines
RECEIVES
typedef void routine(void);
routine *const table[3] PROGMEM = { frame0, frame1, frame2 };
routine *volatile here[2] = { frame2, frame0 };
ISR(TIMER0_COMP_vect) { here[count++ & 1] = count & 2 ? frame1 : frame0; }
#define BEGIN TICK; sei();
#define STEP ((routine *)pgm_read_word(&table[n++ % 3]))(); here[n & 1]();
#endif

#ifdef labels
RECEIVES
#define BEGIN sei();
#define STEP static const void *const at[] = { &&one, &&two, &&three }; goto *at[n++ % 3]; \
    one: k++; two: k ^= 3; three: ;
#endif

#ifdef labelled
RECEIVES
COUNTS
static KEPT void labelled_inside(void)
{
    k++;
    asm volatile("in_the_middle: nop\n nop");
    k += 2;
}
#define BEGIN TICK; sei();
#define STEP labelled_inside();
#endif

#ifdef jumps_back
RECEIVES
COUNTS
jmp_buf before;
static KEPT void deep(uint8_t i)
{
    volatile uint8_t l[3];
    l[i % 3] = i;
    if (i)
        deep(i - 1);
    else
        longjmp(before, 1);
    k += l[0];
}
#define BEGIN TICK; sei();
#define STEP if (setjmp(before)) k++; else deep(5);
#endif

#ifdef jumps_out_of_handler
COUNTS
jmp_buf before;
ISR(USART0_RX_vect) { got = UDR0; longjmp(before, 1); }
#define BEGIN TICK; setjmp(before); sei();
#define STEP k++; count += k;
#endif

#ifdef makes_room
RECEIVES
COUNTS
static KEPT void room(uint8_t size)
{
    volatile uint8_t *p = alloca(size);
    p[0] = size;
    p[size - 1] ^= k;
    k += p[0];
}
#define BEGIN TICK; sei();
#define STEP room(1 + (n++ & 15));
#endif

#ifdef recursion
RECEIVES
ISR(TIMER0_COMP_vect) { k++; }
static KEPT uint16_t fib(uint8_t i) { return i < 2 ? i : fib(i - 1) + fib(i - 2); }
static KEPT uint8_t ack(uint8_t m, uint8_t i) { return !m ? i + 1 : !i ? ack(m - 1, 1) : ack(m - 1, ack(m, i - 1)); }
#define BEGIN TICK; sei();
#define STEP count = fib(4) + k; k = ack(1, 2);
#endif

#ifdef ring
volatile uint8_t bytes[8], first, last;
ISR(USART0_RX_vect)
{
    uint8_t c = UDR0, next = (last + 1) & 7;
    if (next != first) {
        bytes[last] = c;
        last = next;
    }
}
ISR(USART0_UDRE_vect)
{
    if (first == last) {
        UCSR0B &= ~_BV(UDRIE0);
    } else {
        UDR0 = bytes[first];
        first = (first + 1) & 7;
    }
}
#define BEGIN sei();
#define STEP k++; if (first != last) UCSR0B |= _BV(UDRIE0);
#endif

#ifdef shared
volatile struct { uint16_t at; uint8_t kind; struct { int8_t level; uint32_t sum; } in[2]; } box;
ISR(TIMER0_COMP_vect) { box.at++; box.in[box.at & 1].sum += box.kind; }
ISR(USART0_RX_vect) { box.kind = UDR0; box.in[0].level--; got = box.kind; }
#define BEGIN TICK; sei();
#define STEP { uint32_t a; ATOMIC_BLOCK(ATOMIC_RESTORESTATE) { a = box.in[0].sum; } k += a + box.in[1].sum; }
#endif

#ifdef polled_timer
#define POLLS
#define BEGIN OCR0 = 90; TCCR0 = _BV(WGM01) | _BV(CS00);
#define STEP if (TIFR & _BV(OCF0)) { TIFR = _BV(OCF0); k++; } if (UCSR0A & _BV(RXC0)) got = UDR0;
#endif

#ifdef polled_by_turns
RECEIVES
ISR(TIMER0_COMP_vect) { UCSR0B &= ~_BV(RXCIE0); k++; }
#define BEGIN TICK; sei();
#define STEP cli(); if (bit_is_set(UCSR0A, RXC0)) { got = UDR0; count++; } sei(); k++; UCSR0B ^= _BV(RXCIE0); \
    UCSR0B |= _BV(RXCIE0);
#endif

#ifdef by_addresses
RECEIVES
#define BEGIN sei();
#define STEP cli(); asm volatile("lds r24,0x2b\n sbrc r24,7\n lds r24,0x2c\n ldi r30,0x20\n ldi r31,0\n ldd r24,Z+11\n" \
                          "ldi r26,0x2c\n ldi r27,0\n ld r24,-X\n nop" ::: "r24", "r26", "r27", "r30", "r31"); \
    UCSR0C = 6; sei();
#endif

#ifdef begins_anew
RECEIVES
COUNTS
#define BEGIN TICK; n++; sei();
#define STEP k++; if (++n % 20 == 0) { cli(); ((void (*)(void))0)(); }
#endif

#ifdef loader
RECEIVES
COUNTS
#define POLLS
static KEPT __attribute__((noreturn)) void application(void)
{
    TICK;
    sei();
    for (;;) {
        k += 5;
        ANSWERS
    }
}
#define BEGIN count = 60000;
#define STEP if (++count == 0) { cli(); UCSR0B |= _BV(RXCIE0); SP = RAMEND; asm volatile("ijmp" :: "z"(application)); } \
    if (UCSR0A & _BV(RXC0)) got = UDR0;
#endif

#ifdef handler_that_stays
COUNTS
ISR(USART0_RX_vect)
{
    got = UDR0;
    put('!');
    sei();
    for (;;) {
        k += 7;
        if (UCSR0A & _BV(RXC0))
            put(UDR0);
    }
}
#define BEGIN TICK; sei();
#define STEP k++;
#endif

#ifdef tail_calls
RECEIVES
static KEPT void three(uint8_t a) { k = a + 3; }
static KEPT void two(uint8_t a) { count += a; three(a ^ 1); }
static KEPT void one(uint8_t a) { k++; if (a & 1) three(a); else two(a + 2); }
ISR(TIMER0_COMP_vect) { two(1); }
#define BEGIN TICK; sei();
#define STEP one(k);
#endif

#ifdef tasks
RECEIVES
COUNTS
uint8_t stack_a[90];
void *saved, *main_stack;
static KEPT __attribute__((naked)) void swap(void **from, void **to)
{
    asm volatile("push r28\n push r29\n push r16\n push r17\n movw r30,r24\n in r18,0x3d\n in r19,0x3e\n st Z,r18\n"
                 "std Z+1,r19\n movw r30,r22\n ld r18,Z\n ldd r19,Z+1\n in r20,0x3f\n cli\n out 0x3e,r19\n"
                 "out 0x3f,r20\n out 0x3d,r18\n pop r17\n pop r16\n pop r29\n pop r28\n ret");
}
static void task(void) { for (;;) { k++; count += 3; swap(&saved, &main_stack); } }
static void begin(void)
{
    uint8_t *top = stack_a + sizeof stack_a - 1;
    *top-- = (uint16_t)task & 0xFF;
    *top-- = (uint16_t)task >> 8;
    saved = top - 4;
}
#define BEGIN begin(); TICK; sei();
#define STEP swap(&main_stack, &saved);
#endif

#ifdef preempted
RECEIVES
uint8_t other_stack[120];
volatile uint16_t kept_stack;
volatile uint8_t spun;
ISR(TIMER1_COMPA_vect, ISR_NAKED)
{
    asm volatile("push r0\n in r0,0x3f\n push r0\n push r1\n"
                 ".irp r,2,3,4,5,6,7,8,9,10,11,12,13,14,15,16,17,18,19,20,21,22,23,24,25,26,27,28,29,30,31\n"
                 "push r\\r\n .endr\n clr r1\n in r24,0x3d\n in r25,0x3e\n lds r26,kept_stack\n lds r27,kept_stack+1\n"
                 "sts kept_stack,r24\n sts kept_stack+1,r25\n out 0x3d,r26\n out 0x3e,r27\n"
                 ".irp r,31,30,29,28,27,26,25,24,23,22,21,20,19,18,17,16,15,14,13,12,11,10,9,8,7,6,5,4,3,2\n"
                 "pop r\\r\n .endr\n pop r1\n pop r0\n out 0x3f,r0\n pop r0\n reti");
}
static void spin(void) { sei(); for (;;) { spun++; cli(); count += spun; sei(); } }
static void begin(void)
{
    uint8_t *top = other_stack + sizeof other_stack - 1;
    *top-- = (uint16_t)spin & 0xFF;
    *top-- = (uint16_t)spin >> 8;
    kept_stack = (uint16_t)(top - 33);
}
#define BEGIN begin(); TOCK; sei();
#define STEP k++;
#endif

#ifdef one_for_all
ISR(BADISR_vect) { if (UCSR0A & _BV(RXC0)) got = UDR0; count++; }
#define BEGIN TICK; TOCK; sei();
#define STEP k++;
#endif

#ifdef aliases
RECEIVES
EMPTY_INTERRUPT(TIMER1_COMPA_vect)
ISR(TIMER0_COMP_vect) { k++; }
ISR(TIMER0_OVF_vect, ISR_ALIASOF(TIMER0_COMP_vect));
#define BEGIN TICK; TOCK; set_sleep_mode(SLEEP_MODE_IDLE); sei();
#define STEP sleep_mode();
#endif

#ifdef sleeps
RECEIVES
ISR(TIMER1_COMPA_vect) { count++; if (got) sleep_disable(); }
#define BEGIN TOCK; set_sleep_mode(SLEEP_MODE_IDLE); sei();
#define STEP if (n++ < 40) sleep_mode(); else if (n < 45) { cli(); sleep_enable(); sei(); sleep_cpu(); } k++;
#endif

#ifdef sleeps_for_ever
RECEIVES
#define BEGIN set_sleep_mode(SLEEP_MODE_IDLE); sei();
#define STEP if (n) { cli(); sleep_mode(); } n += got;
#endif

#ifdef libraries
RECEIVES
COUNTS
#define BEGIN TICK; sei();
#define STEP { char text[20], *p = malloc(9); sprintf(text, "%u %s", k, "ab"); strcpy(p, "xyz"); memcpy(text, p, 4); \
    k += strlen(text); free(p); }
#endif

#ifdef floats
RECEIVES
ISR(TIMER0_COMP_vect) { k++; }
volatile float level = 0.5f;
#define BEGIN TICK; sei();
#define STEP level = level * 1.25f + k; if (level > 900.0f) level /= 333.0f;
#endif

#ifdef overrun
ISR(USART0_RX_vect) { got = UDR0; if (UCSR0A & _BV(RXC0)) got ^= UDR0; }
ISR(TIMER0_COMP_vect) { if (count & 1) { UCSR0B &= ~_BV(RXEN0); UCSR0B |= _BV(RXEN0); } }
#define BEGIN TICK; sei();
#define STEP if (UCSR0A & _BV(DOR0)) { k = UDR0; k = UDR0; } count++;
#endif

#ifdef tells_time
ISR(USART0_RX_vect) { got = UDR0 + TCNT0; }
ISR(TIMER0_COMP_vect) { k++; }
#define BEGIN TICK; sei();
#define STEP count++;
#endif

#ifdef stops
COUNTS
ISR(USART0_RX_vect) { got = UDR0; if (k & 1) ADCSRA = _BV(ADEN); }
#define BEGIN TICK; sei();
#define STEP k++; if (n++ > 250) put('.');
#endif

#ifdef watchdog_off
RECEIVES
COUNTS
#define BEGIN wdt_disable(); TICK; sei();
#define STEP wdt_reset(); k++; if ((n++ & 7) == 0) wdt_disable();
#endif

#ifdef watchdog_on_arrival
COUNTS
ISR(USART0_RX_vect) { got = UDR0; wdt_reset(); if (k & 2) wdt_enable(WDTO_15MS); }
#define BEGIN TICK; sei();
#define STEP wdt_reset(); k++;
#endif

#ifdef eeprom_kept
RECEIVES
COUNTS
#define BEGIN TICK; sei();
#define STEP EEAR = k; EEDR = n; if (!(EECR & _BV(EEWE))) k++; n += EEDR ^ EEARL;
#endif

#ifdef eeprom_on_arrival
COUNTS
ISR(USART0_RX_vect) { got = UDR0; if (count & 1) k = eeprom_read_byte((const uint8_t *)5); }
#define BEGIN TICK; sei();
#define STEP k++;
#endif

#ifdef returns_by_ret
COUNTS
ISR(USART0_RX_vect, ISR_NAKED)
{
    asm volatile("push r24\n in r24,0x0c\n sts got,r24\n pop r24\n ret");
}
#define BEGIN TICK; sei();
#define STEP k++; asm volatile("nop"); k ^= 3; sei();
#endif

#ifdef clears_saved_flag
COUNTS
/* the handler returns by RETI, and the caller's SREG that it saved gets other flags */
ISR(USART0_RX_vect, ISR_NAKED)
{
    asm volatile("push r24\n in r24,0x3f\n ori r24,0x40\n push r24\n in r24,0x0c\n sts got,r24\n pop r24\n"
                 "andi r24,0x7f\n out 0x3f,r24\n pop r24\n reti");
}
#define BEGIN TICK; sei();
#define STEP k++; asm volatile("brtc 1f\n clt\n lds r18,k\n subi r18,-7\n sts k,r18\n 1: nop" ::: "r18");
#endif

#ifdef skips_return
COUNTS
static KEPT __attribute__((naked)) void give_up(void) { asm volatile("pop r24\n pop r24\n ret"); }
static KEPT void tries(void) { k++; if (k & 4) give_up(); k += 3; }
RECEIVES
#define BEGIN TICK; sei();
#define STEP tries(); count ^= k;
#endif

#ifdef disables_itself
ISR(USART0_RX_vect) { UCSR0B &= ~_BV(RXCIE0); n = 1; }
COUNTS
#define BEGIN TICK; sei();
#define STEP if (n) { cli(); n = 0; got = UDR0; UCSR0B |= _BV(RXCIE0); sei(); } k++;
#endif

#ifdef spi_and_timers
RECEIVES
ISR(SPI_STC_vect) { sei(); k += SPDR; n++; SPDR = n; }
ISR(TIMER0_COMP_vect, ISR_NOBLOCK) { count++; frame0(); }
ISR(TIMER1_COMPA_vect) { if (SPSR & _BV(SPIF)) n = SPDR; }
#define BEGIN DDRB |= 7; PORTB |= 1; SPCR = _BV(SPE) | _BV(MSTR) | _BV(SPIE); TICK; TOCK; SPDR = 0; sei();
#define STEP k ^= n;
#endif

#ifdef rx_drains
volatile uint8_t queue[4], put_at, take_at;
ISR(USART0_RX_vect) { do queue[put_at++ & 3] = UDR0; while (UCSR0A & _BV(RXC0)); }
ISR(TIMER0_COMP_vect) { _delay_loop_1(30); count++; }
#define BEGIN TICK; sei();
#define STEP if (put_at != take_at) got = queue[take_at++ & 3]; k++;
#endif

#ifdef three_timers
RECEIVES
ISR(TIMER0_COMP_vect) { count++; }
ISR(TIMER1_COMPA_vect, ISR_NOBLOCK) { k++; frame0(); }
ISR(TIMER3_COMPA_vect) { n++; sei(); frame1(); }
#define BEGIN TICK; TOCK; TACK; sei();
#define STEP k ^= n; frame2();
#endif

#ifdef jumps_in_handlers
COUNTS
jmp_buf before;
volatile uint8_t deep;
ISR(TIMER1_COMPA_vect) { n++; if ((n & 7) == 0) { longjmp(before, n); } }
RECEIVES
#define BEGIN TICK; TOCK; if (setjmp(before)) { k++; } sei();
#define STEP k++; frame1();
#endif

#ifndef POLLS
#define POLLS 0
#else
#undef POLLS
#define POLLS 1
#endif

int main(void)
{
    uart(!POLLS);
    BEGIN
    for (;;) {
        STEP
        ANSWERS
    }
}
