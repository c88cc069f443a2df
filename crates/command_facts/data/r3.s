ldi r3, 1
