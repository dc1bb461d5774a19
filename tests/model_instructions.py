"""The instructions of the plain model."""

import re
import struct

from model_code import AF, CF, CONDITIONS, IF, LOCAL, NAMES, OF, PF, SF, SIZES, ZF, parity
from model_devices import Run


class Machine(Run):
    """The instructions."""

    def value(self, cpu, text, size=None):
        if text in NAMES:
            number, size = NAMES[text]
            return cpu.regs[number] & ((1 << 8 * size) - 1)
        if "[" in text or "ds:" in text:
            size, at = self.address(cpu, text)
            return self.read(at, size)
        return int(text, 0) & ((1 << 8 * size) - 1)

    def address(self, cpu, text):
        size = SIZES.get(text.split()[0], 8)
        inner = text.split("ds:")[1] if "ds:" in text else text[text.index("[") + 1:text.index("]")]
        at = 0
        for part in re.findall(r"[+-]?[^+-]+", inner):
            sign, part = (-1 if part[0] == "-" else 1), part.lstrip("+-")
            if "*" in part:
                name, scale = part.split("*")
                at += cpu.regs[NAMES[name][0]] * int(scale)
            else:
                at += cpu.regs[NAMES[part][0]] if part in NAMES else sign * int(part, 0)
        return size, at & (1 << 64) - 1

    def put(self, cpu, text, value):
        if text in NAMES:
            number, size = NAMES[text]
            if size >= 4:
                cpu.regs[number] = value & ((1 << 8 * size) - 1)
            else:
                mask = (1 << 8 * size) - 1
                cpu.regs[number] = cpu.regs[number] & ~mask | value & mask
        else:
            size, at = self.address(cpu, text)
            self.write(cpu, at, size, value)

    def size_of(self, text):
        return NAMES[text][1] if text in NAMES else SIZES[text.split()[0]]

    def flags(self, cpu, size, result, mask=CF | PF | AF | ZF | SF | OF, **bits):
        top = 1 << 8 * size - 1
        now = (0 if result & (2 * top - 1) else ZF) | (SF if result & top else 0) | parity(result)
        for flag, bit in ((CF, bits.get("carry")), (AF, bits.get("half")), (OF, bits.get("over"))):
            now |= flag if bit else 0
        cpu.flags = cpu.flags & ~mask | now & mask

    def add_or_sub(self, cpu, size, a, b, minus, mask=CF | PF | AF | ZF | SF | OF):
        full, top = 1 << 8 * size, 1 << 8 * size - 1
        result = (a - b if minus else a + b) % full
        carry = a < b if minus else a + b >= full
        over = (a ^ (b if minus else result)) & (a ^ result if minus else b ^ result) & top
        self.flags(cpu, size, result, mask, carry=carry, half=(a ^ b ^ result) & 16, over=over)
        return result

    def is_local(self, cpu):
        assert cpu.rip < self.code_length
        word, _, rest = self.code.at(cpu.rip)[1].partition(" ")
        return word in LOCAL and (word == "lea" or not ("[" in rest or "ds:" in rest))

    def push(self, cpu, value):
        cpu.regs[4] = (cpu.regs[4] - 8) % (1 << 64)
        self.write(cpu, cpu.regs[4], 8, value)

    def pop(self, cpu):
        value = self.read(cpu.regs[4], 8)
        cpu.regs[4] = (cpu.regs[4] + 8) % (1 << 64)
        return value

    def execute(self, cpu):
        """One instruction. GNU's text of it names each operand."""
        self.running = cpu
        length, text = self.code.at(cpu.rip)
        word, _, rest = text.partition(" ")
        if word == "lock":
            word, _, rest = rest.partition(" ")
        ops = [o.strip() for o in rest.split(",")] if rest.strip() else []
        next_rip, shadow = cpu.rip + length, False
        if word in ("mov", "movzx"):
            size = self.size_of(ops[0] if ops[0] in NAMES or word == "movzx" else ops[0])
            self.put(cpu, ops[0], self.value(cpu, ops[1], size))
        elif word == "lea":
            self.put(cpu, ops[0], self.address(cpu, ops[1])[1])
        elif word in ("add", "sub", "cmp", "inc", "dec"):
            size = self.size_of(ops[0])
            a, b = self.value(cpu, ops[0]), 1 if word in ("inc", "dec") else self.value(cpu, ops[1], size)
            mask = PF | AF | ZF | SF | OF | (0 if word in ("inc", "dec") else CF)
            result = self.add_or_sub(cpu, size, a, b, word in ("sub", "cmp", "dec"), mask)
            if word != "cmp":
                self.put(cpu, ops[0], result)
        elif word in ("xor", "or", "and", "test"):
            size = self.size_of(ops[0])
            a, b = self.value(cpu, ops[0]), self.value(cpu, ops[1], size)
            result = {"xor": a ^ b, "or": a | b}.get(word, a & b)
            self.flags(cpu, size, result)
            if word != "test":
                self.put(cpu, ops[0], result)
        elif word in ("shl", "shr"):
            size, a, n = self.size_of(ops[0]), self.value(cpu, ops[0]), int(ops[1], 0)
            result = (a << n if word == "shl" else a >> n) & ((1 << 8 * size) - 1)
            carry = (a >> 8 * size - n if word == "shl" else a >> n - 1) & 1
            assert n > 1
            self.flags(cpu, size, result, carry=carry)
            self.put(cpu, ops[0], result)
        elif word == "imul":
            assert len(ops) == 3 and self.size_of(ops[0]) == 4
            product = self.value(cpu, ops[1]) * int(ops[2], 0)
            assert product < 1 << 31
            cpu.flags &= ~(CF | PF | AF | ZF | SF | OF)
            self.put(cpu, ops[0], product)
        elif word == "div":
            by = self.value(cpu, ops[0])
            whole = (cpu.regs[2] & 0xFFFFFFFF) << 32 | cpu.regs[0] & 0xFFFFFFFF
            assert by and whole // by < 1 << 32
            cpu.regs[0], cpu.regs[2] = whole // by, whole % by
            cpu.flags &= ~(CF | PF | AF | ZF | SF | OF)
        elif word == "jmp" or word[0] == "j":
            if word == "jmp" or CONDITIONS[word[1:]](cpu.flags):
                next_rip = int(ops[0], 0)
        elif word == "call":
            self.push(cpu, next_rip)
            next_rip = int(ops[0], 0)
        elif word == "ret":
            next_rip = self.pop(cpu)
        elif word == "push":
            self.push(cpu, self.value(cpu, ops[0]))
        elif word == "pop":
            self.put(cpu, ops[0], self.pop(cpu))
        elif word == "lidt":
            _, at = self.address(cpu, ops[0])
            cpu.idt = struct.unpack("<HQ", self.ram[at:at + 10])
        elif word == "out":
            assert ops == ["dx", "al"] and cpu.regs[2] & 0xFFFF == 0x3F8
            self.console.append(cpu.regs[0] & 0xFF)
        elif word == "sti":
            shadow = not cpu.flags & IF
            cpu.flags |= IF
        elif word == "cli":
            cpu.flags &= ~IF
        elif word == "hlt":
            cpu.halted = True
        elif word in ("iret", "iretq"):
            next_rip, _, flags, rsp, _ = struct.unpack("<5Q", self.ram[cpu.regs[4]:cpu.regs[4] + 40])
            cpu.flags, cpu.regs[4] = flags & 0xED5 | 2, rsp
        else:
            raise AssertionError(text)
        cpu.rip, cpu.shadow = next_rip, shadow
        cpu.ran, cpu.left, cpu.ran_in_stay = cpu.ran + 1, cpu.left - 1, True
        self.executed += 1

    def deliver(self, cpu, vector):
        limit, base = cpu.idt
        assert 16 * vector + 15 <= limit
        gate = self.ram[base + 16 * vector:base + 16 * vector + 16]
        assert gate[5] == 0x8E and gate[4] & 7 == 0
        top = cpu.regs[4] & ~15
        frame = struct.pack("<5Q", cpu.rip, 8, cpu.flags, cpu.regs[4], 0x10)
        assert self.code_length <= top - 40
        self.ram[top - 40:top] = frame
        cpu.regs[4], cpu.rip = top - 40, int.from_bytes(gate[0:2] + gate[6:12], "little")
        cpu.flags &= ~IF
        cpu.shadow = False
