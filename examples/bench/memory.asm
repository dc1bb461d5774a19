; The loop over memory and the stack: seven instructions a round, 1,000,000 rounds. Its image is that of
; loops.py memory 1000000 image FILE.
    mov esp,0x20000             ; the stack
    mov ecx,1000000             ; rounds
    mov eax,dword [0x10000]
    add eax,3
    mov dword [0x10000],eax
    call rel 7                  ; to ret
    sub ecx,1
    jne rel -27                 ; to the load
    jmp rel 1                   ; over ret
    ret
    hlt
