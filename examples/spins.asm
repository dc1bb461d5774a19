; vCPU 1 runs in a circle for ever; vCPU 0, which starts it, writes A and halts.
; Its image is spins.img. spins.conf gives it two vCPUs, and spins.script ends the run once A is there.
    .entry boot
    jmp rel -2                  ; vCPU 1 begins at address 0, and jumps to itself
boot:                           ; vCPU 0 begins here
    mov ebx,0xfee00300          ; the interrupt command register of its local APIC
    mov dword [rbx],0xc0600     ; start-up of all but itself, at page 0
    mov edx,0x3f8               ; the data register of COM1
    mov al,0x41                 ; A
    out dx,al
    hlt
