; Six requests to two disks, one after the other; it writes the status byte of each as a digit, and a line feed: 111120.
; Disk 0 has 8,193 sectors, and disk 1 may only be read. The requests are:
;   a read of 8,193 sectors (at most 8,192 are read at once), a read of the sector behind the last one, a read of 511 bytes,
;   a write to the disk that may only be read: status 1 (failed) each;
;   a request of type 8, which no device knows: status 2; a flush: status 0.
; Its image is requests.img; requests.conf has the disks.
    lidt [idt]
    mov esp,0x600000
    mov ebx,0xfee000f0
    mov dword [rbx],0x1ff       ; the local APIC is enabled
    mov ebx,0xfec00000          ; the I/O APIC: an entry's number, and behind it the entry's half
    mov dword [rbx],0x30
    mov dword [rbx+0x10],0x8020 ; pin 16, disk 0: vector 0x20, by level, to vCPU 0
    mov dword [rbx],0x32
    mov dword [rbx+0x10],0x8021 ; pin 17, disk 1: vector 0x21
    mov edi,0xd0000000          ; the window of disk 0, and its tables
    mov esi,0x1000
    call setup
    mov r8d,0                   ; a read
    mov r9d,3                   ; the device writes its data, and another descriptor follows
    xor ecx,ecx
    mov r10d,0x400200           ; 8,193 sectors from sector 0 on
    call ask
    mov ecx,8193                ; the sector behind the last one
    mov r10d,512
    call ask
    xor ecx,ecx
    mov r10d,511                ; no whole sector
    call ask
    mov edi,0xd0001000          ; the window of disk 1, and its tables
    mov esi,0x2000
    call setup
    mov r8d,1                   ; a write
    mov r9d,1
    mov r10d,512
    call ask
    mov r8d,8                   ; no device knows this type
    call ask
    mov r8d,4                   ; a flush
    call ask
    mov al,10
    out dx,al
    hlt

ask:                            ; one request: type R8, sector ECX, R10 bytes; writes its status
    mov dword [rsi+0x300],r8d   ; the header: type and sector
    mov dword [rsi+0x308],ecx
    mov dword [rsi],0x300
    add dword [rsi],esi         ; descriptor 0: the header
    mov dword [rsi+8],16
    mov dword [rsi+12],0x10001  ; followed by the data
    mov dword [rsi+16],0x100000 ; descriptor 1: the data
    mov dword [rsi+24],r10d
    lea eax,[r9+0x20000]
    mov dword [rsi+28],eax      ; followed by the status
    cmp r8d,4
    jne status
    mov dword [rsi+12],0x20001  ; a flush has no data
status:
    lea eax,[rsi+0x310]
    mov dword [rsi+32],eax      ; descriptor 2: the status byte
    mov byte [rax],0xff
    mov dword [rsi+40],1
    mov dword [rsi+44],2
    inc word [rsi+0x102]        ; chain 0 is available; each place of the ring names it
    mov dword [rdi+0x50],0      ; the device is notified
wait:
    mov ax,word [rsi+0x102]
    cmp ax,word [rsi+0x182]     ; until all that were available are used
    je told
    sti
    hlt                         ; STI takes effect behind the next instruction, so no interrupt comes in between
    cli
    jmp wait
told:
    mov edx,0x3f8               ; the data register of COM1
    mov al,byte [rsi+0x310]
    add al,0x30
    out dx,al
    ret

setup:                          ; the disk with the window at EDI has its queue at ESI
    mov dword [rdi+0x70],3      ; device status: ACKNOWLEDGE and DRIVER
    mov dword [rdi+0x20],0x200  ; the driver's features: VIRTIO_BLK_F_FLUSH,
    mov dword [rdi+0x24],1      ; and in the high word
    mov dword [rdi+0x20],1      ; VIRTIO_F_VERSION_1
    mov dword [rdi+0x70],8      ; FEATURES_OK
    mov dword [rdi+0x38],4      ; four descriptors
    mov dword [rdi+0x80],esi
    lea eax,[rsi+0x100]         ; the available ring
    mov dword [rdi+0x90],eax
    lea eax,[rsi+0x180]         ; the used ring
    mov dword [rdi+0xa0],eax
    mov dword [rdi+0x44],1      ; the queue is ready
    mov dword [rdi+0x70],4      ; DRIVER_OK
    ret

    .org 0x300
first:                          ; vector 0x20: disk 0
    push rbx
    mov ebx,0xd0000064
    jmp acknowledge
    .org 0x310
second:                         ; vector 0x21: disk 1
    push rbx
    mov ebx,0xd0001064
acknowledge:
    mov dword [rbx],3           ; the device lowers its pin,
    mov ebx,0xfee000b0
    mov dword [rbx],0           ; and then comes the end of interrupt
    pop rbx
    iretq

    .data
    .org 0x400                  ; the gates of vectors 0x20 and 0x21: to addresses 0x300 and 0x310, as interrupt gates
    .word 0x300
    .word 8
    .byte 0
    .byte 0x8e
    .word 0
    .qword 0
    .word 0x310
    .word 8
    .byte 0
    .byte 0x8e
    .word 0
    .qword 0
idt:
    .word 0x21f                 ; the table ends with these gates,
    .qword 0x200                ; and begins 0x200 bytes before them: no other vector is used
