; Reads a running 16-bit timer: timer 1 in normal mode, clock / 8, of which a loop takes the time and adds it up.
;   avr-gcc -mmcu=atmega128 -nostdlib -o counter.elf counter.S && avr-objcopy -O ihex counter.elf counter.hex
        .org 0
        ldi     r16, 0x02
        out     0x2E, r16       ; TCCR1B: clock / 8
again:  in      r18, 0x2C       ; TCNT1L
        in      r19, 0x2D       ; TCNT1H
        add     r20, r18
        adc     r21, r19
        adc     r22, r1
        eor     r23, r18
        inc     r24
        rjmp    again
