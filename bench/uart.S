; Writes bytes to USART0 as fast as it takes them, by a polled loop: 16 cycles a bit, so a frame in 160 cycles.
;   avr-gcc -mmcu=atmega128 -nostdlib -o uart.elf uart.S && avr-objcopy -O ihex uart.elf uart.hex
        .org 0
        ldi     r16, 0x08
        out     0x0A, r16       ; UCSR0B: TXEN
again:  sbis    0x0B, 5         ; UCSR0A: UDRE
        rjmp    again
        out     0x0C, r17       ; UDR0
        inc     r17
        rjmp    again
