; vCPU 0 starts vCPU 1, which counts one and halts; vCPU 0 waits for it, and writes the count: 1.
; Its image is starts.img; starts.conf gives it two vCPUs.
    lock inc dword [0x1000]     ; vCPU 1 begins at address 0
    hlt
boot:                           ; vCPU 0 begins here
    mov ebx,0xfee00300          ; the interrupt command register of its local APIC
    mov dword [rbx],0xc0600     ; start-up of all but itself, at page 0
    mov eax,dword [0x1000]
    cmp eax,1
    jne rel -12                 ; back to the load, in two bytes
    mov edx,0x3f8               ; the data register of COM1
    add al,0x30                 ; the count as a digit
    out dx,al
    hlt
    .entry boot
