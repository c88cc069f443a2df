	ldi r16, 1	; the loop of a.hex
here:
	rjmp here
