; Sends the digits 0 to 9 on USART0, one in about 10,240 cycles, and begins again. Timer 0 counts 10 clocks (CTC, clock / 1024),
; and the loop waits for its compare flag. USART0 takes 7,680 cycles a byte (UBRR 47, eight data bits, one stop bit).
;   ./avrora asm examples/digits.s > digits.hex
;   ./avrora node digits.hex 100000
        ldi r16, 47
        out 0x09, r16           ; UBRR0L
        ldi r16, 0x08
        out 0x0A, r16           ; UCSR0B: TXEN
        ldi r16, 9
        out 0x31, r16           ; OCR0
        ldi r16, 0x0F
        out 0x33, r16           ; TCCR0: CTC, clock / 1024
        ldi r18, 0x02           ; OCF0

again:
        ldi r17, 0x30           ; '0'
send:
        out 0x0C, r17           ; UDR0
wait:
        in r19, 0x36            ; TIFR
        sbrs r19, 1             ; OCF0
        rjmp wait
        out 0x36, r18           ; a 1 clears the flag
        inc r17
        cpi r17, 0x3A           ; behind '9'
        brne send
        rjmp again
