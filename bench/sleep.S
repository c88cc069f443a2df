; Sleeps between ticks of timer 0 in CTC mode: clock / 8, compare value 127, so one interrupt in 1,024 cycles.
;   avr-gcc -mmcu=atmega128 -nostdlib -o sleep.elf sleep.S && avr-objcopy -O ihex sleep.elf sleep.hex
        .org 0
        rjmp    start
        .org 0x3C               ; TIMER0 COMP, word 0x1E
        reti
        .org 0x8C
start:  ldi     r16, 0x10
        out     0x3E, r16       ; SPH
        ldi     r16, 0xFF
        out     0x3D, r16       ; SPL
        ldi     r16, 127
        out     0x31, r16       ; OCR0
        ldi     r16, 0x02
        out     0x37, r16       ; TIMSK: OCIE0
        ldi     r16, 0x0A
        out     0x33, r16       ; TCCR0: CTC, clock / 8
        ldi     r16, 0x20
        out     0x35, r16       ; MCUCR: sleep enable, idle
        sei
again:  sleep
        rjmp    again
