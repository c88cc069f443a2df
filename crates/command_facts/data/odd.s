rjmp .+1
