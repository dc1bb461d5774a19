; The loop of registers alone: four instructions a round, 1,000,000 rounds. Its image is that of
; loops.py registers 1000000 image FILE.
    mov esp,0x20000     ; the stack, of which this loop has no use
    mov ecx,1000000     ; rounds
    add eax,3
    xor edx,eax
    sub ecx,1
    jne rel -10         ; to add
    hlt
