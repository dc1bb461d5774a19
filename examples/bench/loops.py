#!/usr/bin/env python3
"""Writes one of the two loops as a flat image for vmrun or as a boot floppy for Bochs.

Usage: loops.py registers|memory ROUNDS image|boot FILE

registers, 4 instructions a round:  add eax,3; xor edx,eax; sub ecx,1; jnz
memory, 7 instructions a round:     mov eax,[m]; add eax,3; mov [m],eax; call f; sub ecx,1; jnz; f: ret

Both run the same bytes in 64-bit mode. The boot sector enters it with the first 2 MiB mapped by one large page.
"""
import struct
import sys

CELL = 0x10000  # the address m
STACK = 0x20000


def loop(name, rounds):
    """mov esp,STACK; mov ecx,ROUNDS; the loop, which goes on behind itself."""
    start = b"\xbc" + struct.pack("<I", STACK) + b"\xb9" + struct.pack("<I", rounds)
    if name == "registers":
        return start + bytes.fromhex("83 c0 03 31 c2 83 e9 01 75 f6")
    mem = b"\x04\x25" + struct.pack("<I", CELL)
    body = b"\x8b" + mem + bytes.fromhex("83 c0 03") + b"\x89" + mem
    # call f, behind the jump over it; sub ecx,1; jnz body; jmp over f; f: ret
    back = len(body) + 5 + 3 + 2
    tail = b"\xe8" + struct.pack("<i", 7) + bytes.fromhex("83 e9 01") + b"\x75" + struct.pack("<b", -back)
    return start + body + tail + bytes.fromhex("eb 01 c3")


def image(name, rounds):
    """A flat image: the loop, HLT."""
    code = loop(name, rounds) + b"\xf4"
    return b"VMFLAT1\n" + struct.pack("<QQ", 0, len(code)) + code


def boot(name, rounds):
    """A boot sector: 64-bit mode, the loop, and the word that ends Bochs at port 0x8900."""
    enter = bytes.fromhex(
        "fa 31 c0 8e d8 8e c0"  # cli; xor ax,ax; mov ds,ax; mov es,ax
        "66 c7 06 00 10 03 20 00 00"  # mov dword [0x1000],0x2003: PML4
        "66 c7 06 00 20 03 30 00 00"  # mov dword [0x2000],0x3003: PDPT
        "66 c7 06 00 30 83 00 00 00"  # mov dword [0x3000],0x83: one page of 2 MiB
        "66 b8 00 10 00 00 0f 22 d8"  # mov eax,0x1000; mov cr3,eax
        "0f 20 e0 66 83 c8 20 0f 22 e0"  # mov eax,cr4; or eax,0x20 (PAE); mov cr4,eax
        "66 b9 80 00 00 c0 0f 32 66 0d 00 01 00 00 0f 30"  # EFER: rdmsr; or eax,0x100 (LME); wrmsr
        "0f 01 16 d8 7d"  # lgdt [0x7dd8]
        "0f 20 c0 66 0d 01 00 00 80 0f 22 c0"  # mov eax,cr0; or eax,0x80000001; mov cr0,eax
    )
    enter += b"\xea" + struct.pack("<HH", 0x7C00 + len(enter) + 5, 8)  # jmp 8:next
    code = enter + loop(name, rounds)
    code += b"\x66\xba" + struct.pack("<H", 0x8900)  # mov dx,0x8900
    for letter in b"Shutdown":
        code += b"\xb0" + bytes([letter]) + b"\xee"  # mov al,letter; out dx,al
    code += b"\xf4\xeb\xfd"
    assert len(code) <= 0x1C0
    table = bytes(8) + bytes.fromhex("ff ff 00 00 00 9a af 00") + bytes.fromhex("ff ff 00 00 00 92 cf 00")
    sector = code.ljust(0x1C0, b"\0") + table + struct.pack("<HI", 23, 0x7DC0)
    sector = sector.ljust(510, b"\0") + b"\x55\xaa"
    assert len(sector) == 512
    return sector + bytes(1474560 - 512)


name, rounds, kind, path = sys.argv[1:]
with open(path, "wb") as out:
    out.write((image if kind == "image" else boot)(name, int(rounds)))
