; Two disks, each asked for two writes (of sectors 0 and 2) at once, then for a flush, then for two reads of the same sectors.
; Both disks are at work at the same time; the guest waits halted, and the disks' interrupts wake it.
; For each disk it writes a line: the five status bytes in the order of the requests, a space, the first bytes that were read.
; Where all goes well these are 00000 12 and 00000 34. Its image is disks.img; disks.conf has the disks.
    lidt [idt]
    mov esp,0x8000
    mov ebx,0xfee000f0
    mov dword [rbx],0x1ff       ; the local APIC is enabled
    mov ebx,0xfec00000          ; the I/O APIC: an entry's number, and behind it the entry's half
    mov dword [rbx],0x30
    mov dword [rbx+0x10],0x8020 ; pin 16, disk 0: vector 0x20, by level, to vCPU 0
    mov dword [rbx],0x32
    mov dword [rbx+0x10],0x8021 ; pin 17, disk 1: vector 0x21
    mov edi,0xd0000000          ; the window of disk 0, and its tables
    mov esi,0x1000
    call setup
    mov edi,0xd0001000          ; the window of disk 1, and its tables
    mov esi,0x2000
    call setup
    mov byte [0x4000],0x31      ; what is written: 1 and 2 to disk 0, 3 and 4 to disk 1
    mov byte [0x4200],0x32
    mov byte [0x4400],0x33
    mov byte [0x4600],0x34
    xor ebp,ebp                 ; EBP is the number of requests that each disk has got
    mov r8d,1                   ; R8 is the type: 1, a write
    mov r9d,1                   ; R9 are the flags of its data: another descriptor follows
    mov edi,0x4000              ; EDI is where the data stand
    call both
    mov r8d,4                   ; a flush
    mov esi,0x1000
    call ask
    mov esi,0x2000
    call ask
    inc ebp
    call finish
    mov r8d,0                   ; a read
    mov r9d,3                   ; the device writes its data, and another descriptor follows
    mov edi,0x5000
    call both
    mov esi,0x1000
    mov edi,0x5000
    call line
    mov esi,0x2000
    mov edi,0x5400
    call line
    hlt

both:                           ; sectors 0 and 2 of both disks; to or from 512 bytes each
    mov esi,0x1000
    call two
    sub ebp,2
    mov esi,0x2000
    call two
    jmp finish
two:                            ; sectors 0 and 2 of the disk with the tables at ESI
    xor ecx,ecx
    call ask
    inc ebp
    add edi,0x200
    mov ecx,2
    call ask
    inc ebp
    add edi,0x200
    ret

ask:                            ; one request more: type R8, sector ECX, data at EDI
    mov edx,ebp
    shl edx,4
    lea edx,[rdx+rsi*1+0x300]     ; its header: type and sector
    mov dword [rdx],r8d
    mov dword [rdx+8],ecx
    imul ebx,ebp,48
    add ebx,esi                 ; its three descriptors
    mov dword [rbx],edx         ; the header, which
    mov dword [rbx+8],16
    lea eax,[rbp+rbp*2]
    lea edx,[rax+1]
    cmp r8d,4
    jne data
    inc edx                     ; is followed by the status where it is a flush,
data:
    shl edx,16
    inc edx
    mov dword [rbx+12],edx      ; and else by the data
    mov dword [rbx+16],edi
    mov dword [rbx+24],512
    lea edx,[rax+2]
    shl edx,16
    or edx,r9d
    mov dword [rbx+28],edx
    lea edx,[rsi+rbp*1+0x400]     ; the status byte
    mov byte [rdx],0xff
    mov dword [rbx+32],edx
    mov dword [rbx+40],1
    mov dword [rbx+44],2
    mov word [rsi+rbp*2+0x104],ax ; the available ring: the first descriptor, and the index
    lea edx,[rbp+1]
    mov word [rsi+0x102],dx
    ret

finish:                         ; notifies both disks, and waits until they have used EBP requests
    mov ebx,0xd0000050
    mov dword [rbx],0
    mov ebx,0xd0001050
    mov dword [rbx],0
wait:
    movzx eax,word [0x1182]     ; the index of the used ring of disk 0
    movzx edx,word [0x2182]     ; and of disk 1
    cmp eax,ebp
    jne sleep
    cmp edx,ebp
    jne sleep
    ret
sleep:
    sti
    hlt                         ; STI takes effect behind the next instruction, so no interrupt comes in between
    cli
    jmp wait

setup:                          ; the disk with the window at EDI has its queue at ESI
    mov dword [rdi+0x70],3      ; device status: ACKNOWLEDGE and DRIVER
    mov dword [rdi+0x20],0x200  ; the driver's features: VIRTIO_BLK_F_FLUSH,
    mov dword [rdi+0x24],1      ; and in the high word
    mov dword [rdi+0x20],1      ; VIRTIO_F_VERSION_1
    mov dword [rdi+0x70],8      ; FEATURES_OK
    mov dword [rdi+0x38],16     ; 16 descriptors
    mov dword [rdi+0x80],esi
    lea eax,[rsi+0x100]         ; the available ring
    mov dword [rdi+0x90],eax
    lea eax,[rsi+0x180]         ; the used ring
    mov dword [rdi+0xa0],eax
    mov dword [rdi+0x44],1      ; the queue is ready
    mov dword [rdi+0x70],4      ; DRIVER_OK
    ret

line:                           ; writes the status bytes at ESI + 0x400, and the first bytes at EDI and EDI + 0x200
    mov edx,0x3f8               ; the data register of COM1
    mov ecx,5
status:
    mov al,byte [rsi+0x400]
    add al,0x30
    out dx,al
    inc esi
    dec ecx
    jne status
    mov al,0x20
    out dx,al
    mov al,byte [rdi]
    call shown
    mov al,byte [rdi+0x200]
    call shown
    mov al,10
    out dx,al
    ret
shown:                          ; writes AL, or a dot where it is 0
    test al,al
    jne there
    mov al,0x2e
there:
    out dx,al
    ret

    .org 0x300
first:                          ; vector 0x20: disk 0
    push rbx
    mov ebx,0xd0000064
    jmp acknowledge
    .org 0x310
second:                         ; vector 0x21: disk 1
    push rbx
    mov ebx,0xd0001064
acknowledge:
    mov dword [rbx],3           ; the device lowers its pin,
    mov ebx,0xfee000b0
    mov dword [rbx],0           ; and then comes the end of interrupt
    pop rbx
    iretq

    .data
    .org 0x400                  ; the gates of vectors 0x20 and 0x21: to addresses 0x300 and 0x310, as interrupt gates
    .word 0x300
    .word 8
    .byte 0
    .byte 0x8e
    .word 0
    .qword 0
    .word 0x310
    .word 8
    .byte 0
    .byte 0x8e
    .word 0
    .qword 0
idt:
    .word 0x21f                 ; the table ends with these gates,
    .qword 0x200                ; and begins 0x200 bytes before them: no other vector is used
