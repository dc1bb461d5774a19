; Four vCPUs add to one number: each adds its own number and 1, a thousand times, so the sum is (1 + 2 + 3 + 4) * 1000.
; The last one that is done sends an interrupt to vCPU 0, which waits halted, and then writes 10000 and a line feed.
; Its image is counts.img. counts.conf gives it four vCPUs, and counts.script lets them meet twice.
start:                          ; vCPUs 1 to 3 begin here, at address 0
    mov ebx,0xfee00020          ; the local APIC's ID, above bit 24, is the vCPU's number
    mov esi,dword [rbx]
    shr esi,24
    lea edi,[rsi+1]
    mov ecx,1000
again:
    lock add dword [total],edi
    dec ecx
    jne again
    lock dec dword [working]
    jne counted
    mov ebx,0xfee00300          ; the interrupt command register of the local APIC
    mov dword [rbx],0x20        ; the last one sends vector 0x20 to vCPU 0
counted:
    test esi,esi
    je wait
    hlt
wait:                           ; vCPU 0 waits until nobody is at work
    cmp dword [working],0
    je print
    sti
    hlt                         ; STI takes effect behind the next instruction, so no interrupt comes in between
    cli
    jmp wait
print:                          ; the sum in decimal, its last digit first, into `text`
    mov eax,dword [total]
    mov ebx,line
    mov ecx,10
digit:
    xor edx,edx
    div ecx
    add dl,0x30
    dec ebx
    mov byte [rbx],dl
    test eax,eax
    jne digit
    mov edx,0x3f8               ; the data register of COM1
send:
    mov al,byte [rbx]
    out dx,al
    inc ebx
    cmp al,10
    jne send
    hlt
boot:                           ; vCPU 0 begins here
    lidt [idt]
    mov esp,0x8000
    mov ebx,0xfee000f0
    mov dword [rbx],0x1ff       ; its local APIC is enabled
    mov ebx,0xfee00300
    mov dword [rbx],0xc0600     ; start-up of all but itself, at page 0
    jmp start
    .entry boot
    .org 0x100
taken:                          ; vector 0x20
    push rbx
    mov ebx,0xfee000b0
    mov dword [rbx],0           ; end of interrupt
    pop rbx
    iretq
    .data
    .org 0x200                  ; the gate of vector 0x20: to address 0x100, as an interrupt gate
    .word 0x100
    .word 8
    .byte 0
    .byte 0x8e
    .word 0
    .qword 0
idt:
    .word 0x20f                 ; the table ends with this gate,
    .qword 0                    ; and begins at address 0: no other vector is used
total:
    .dword 0
working:
    .dword 4
text:
    .qword 0
    .word 0
line:
    .byte 10
