; A loop of register instructions under the tick of a small system: timer 0 in CTC mode, clock / 8, every 400 cycles.
;   avr-gcc -mmcu=atmega128 -nostdlib -o ticks400.elf ticks400.S && avr-objcopy -O ihex ticks400.elf ticks400.hex
        .org 0
        rjmp    start
        .org 0x3C               ; TIMER0 COMP, word 0x1E
        rjmp    tick
        .org 0x8C
tick:   push    r16
        in      r16, 0x3F       ; SREG
        push    r16
        inc     r20
        out     0x1B, r20       ; PORTA
        pop     r16
        out     0x3F, r16
        pop     r16
        reti
start:  ldi     r16, 0x10
        out     0x3E, r16       ; SPH
        ldi     r16, 0xFF
        out     0x3D, r16       ; SPL
        ldi     r16, 49
        out     0x31, r16       ; OCR0
        ldi     r16, 0x02
        out     0x37, r16       ; TIMSK: OCIE0
        ldi     r16, 0x0A
        out     0x33, r16       ; TCCR0: CTC, clock / 8
        sei
again:  add     r0, r20
        adc     r1, r0
        eor     r2, r1
        lsr     r2
        rjmp    again
