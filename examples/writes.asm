; Two disks of one sector, each asked to write it: the first to begin with `first`, the second with `second`.
; Its image is writes.img; writes.conf has the disks. Nobody waits for them: the guest notifies both, and halts.
    mov ebx,0xd0000000          ; the window of disk 0
    mov esi,0x100               ; where its queue's tables begin
again:
    mov dword [rbx+0x70],3      ; device status: ACKNOWLEDGE and DRIVER
    mov dword [rbx+0x24],1      ; the high word of the driver's features:
    mov dword [rbx+0x20],1      ; VIRTIO_F_VERSION_1
    mov dword [rbx+0x70],8      ; FEATURES_OK
    mov dword [rbx+0x38],4      ; the queue has room for four descriptors,
    mov dword [rbx+0x80],esi    ; which stand here
    lea eax,[rsi+0x40]
    mov dword [rbx+0x90],eax    ; the available ring
    lea eax,[rsi+0x50]
    mov dword [rbx+0xa0],eax    ; the used ring
    mov dword [rbx+0x44],1      ; the queue is ready
    mov dword [rbx+0x70],4      ; DRIVER_OK
    add esi,0x100               ; the tables
    add ebx,0x1000              ; and the window of disk 1
    cmp ebx,0xd0002000
    jne again
    mov ebx,0xd0000050          ; both are notified
    mov dword [rbx],0
    mov ebx,0xd0001050
    mov dword [rbx],0
    hlt
    .data
    .org 0x100                  ; disk 0: descriptors as address, length, flags (1 next, 2 device writes), next
    .qword 0x180
    .dword 16
    .word 1
    .word 1
    .qword 0x400
    .dword 512
    .word 1
    .word 2
    .qword 0x190
    .dword 1
    .word 2
    .word 0
    .org 0x140                  ; available ring: flags, index 1, chain 0
    .word 0
    .word 1
    .word 0
    .org 0x180                  ; the request's header: type 1, a write, of sector 0; behind it the status byte
    .dword 1
    .dword 0
    .qword 0
    .byte 0xff
    .org 0x200                  ; the same for disk 1
    .qword 0x280
    .dword 16
    .word 1
    .word 1
    .qword 0x600
    .dword 512
    .word 1
    .word 2
    .qword 0x290
    .dword 1
    .word 2
    .word 0
    .org 0x240
    .word 0
    .word 1
    .word 0
    .org 0x280
    .dword 1
    .dword 0
    .qword 0
    .byte 0xff
    .org 0x400
    .dword 0x73726966           ; `first`
    .byte 0x74
    .org 0x600
    .dword 0x6f636573           ; `second`
    .word 0x646e
