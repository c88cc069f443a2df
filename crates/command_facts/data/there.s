rjmp .+1
here:
jmp there
