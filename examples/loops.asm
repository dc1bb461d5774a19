; Four vCPUs, each 800,000 times round a loop that touches its own registers alone: 9,600,011 instructions in all. It writes nothing,
; and is there for the clock. Its image is loops.img; loops.conf gives it four vCPUs.
start:                          ; vCPUs 1 to 3 begin here, at address 0
    mov ecx,800000
again:
    add eax,3
    dec ecx
    jne again
    hlt
boot:                           ; vCPU 0 begins here
    mov ebx,0xfee00300          ; the interrupt command register of its local APIC
    mov dword [rbx],0xc0600     ; start-up of all but itself, at page 0
    jmp start
    .entry boot
