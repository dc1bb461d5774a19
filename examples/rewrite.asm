; Writes sector 0 of a disk twice, and each time the request's status byte as a digit: 0 where it was written, and 1 where
; that failed. Its image is rewrite.img; rewrite.conf has the disk.
    lidt [idt]
    mov esp,0x8000
    mov ebx,0xfee000f0
    mov dword [rbx],0x1ff       ; the local APIC is enabled
    mov ebx,0xfec00000          ; the I/O APIC: an entry's number, and behind it the entry's half
    mov dword [rbx],0x30
    mov dword [rbx+0x10],0x8020 ; pin 16, disk 0: vector 0x20, by level, to vCPU 0
    mov edi,0xd0000000          ; the window of disk 0
    mov dword [rdi+0x70],3      ; device status: ACKNOWLEDGE and DRIVER
    mov dword [rdi+0x24],1      ; the high word of the driver's features:
    mov dword [rdi+0x20],1      ; VIRTIO_F_VERSION_1
    mov dword [rdi+0x70],8      ; FEATURES_OK
    mov dword [rdi+0x38],4      ; the queue has room for four descriptors,
    mov dword [rdi+0x80],descriptors
    mov dword [rdi+0x90],available
    mov dword [rdi+0xa0],used
    mov dword [rdi+0x44],1      ; and is ready
    mov dword [rdi+0x70],4      ; DRIVER_OK
    xor ebp,ebp                 ; EBP is the number of requests that were made
again:
    inc ebp
    mov word [made],bp          ; chain 0 is available; each place of the ring names it
    mov dword [rdi+0x50],0      ; the device is notified
wait:
    cmp word [done],bp          ; until it was used as often
    je told
    sti
    hlt                         ; STI takes effect behind the next instruction, so no interrupt comes in between
    cli
    jmp wait
told:
    mov edx,0x3f8               ; the data register of COM1
    mov al,byte [status]
    add al,0x30
    out dx,al
    cmp ebp,2
    jne again
    hlt

    .org 0x100
taken:                          ; vector 0x20
    push rbx
    mov ebx,0xd0000064
    mov dword [rbx],3           ; the device lowers its pin,
    mov ebx,0xfee000b0
    mov dword [rbx],0           ; and then comes the end of interrupt
    pop rbx
    iretq

    .data
    .org 0x200                  ; the gate of vector 0x20: to address 0x100, as an interrupt gate
    .word 0x100
    .word 8
    .byte 0
    .byte 0x8e
    .word 0
    .qword 0
idt:
    .word 0x20f                 ; the table ends with this gate,
    .qword 0                    ; and begins at address 0: no other vector is used
    .org 0x220
descriptors:                    ; address, length, flags (1 next, 2 device writes), next
    .qword header
    .dword 16
    .word 1
    .word 1
    .qword sector
    .dword 512
    .word 1
    .word 2
    .qword status
    .dword 1
    .word 2
    .word 0
    .org 0x260
available:                      ; flags, index, ring
    .word 0
made:
    .org 0x270
used:
    .word 0
done:
    .org 0x2a0
header:                         ; a write of sector 0
    .dword 1
    .dword 0
    .qword 0
status:
    .byte 0xff
    .org 0x300
sector:                         ; begins with `new`
    .dword 0x0a77656e
    .org 0x500
