; Writes `A` to the serial port and halts. Its image is a.img.
    mov edx,0x3f8   ; the data register of COM1
    mov al,0x41
    out dx,al
    hlt
