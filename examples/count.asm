; Writes CBA to the serial port: a loop with a label. Its image is count.img.
    mov edx,0x3f8   ; the data register of COM1
    mov al,0x43     ; the letter C
again:
    out dx,al
    sub al,1
    cmp al,0x40     ; the byte before A
    jne again       ; a field that holds a label has 32 bits
    hlt
