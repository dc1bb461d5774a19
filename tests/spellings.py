#!/usr/bin/env python3
"""Tries the decoder on byte strings against GNU objdump and against the table of opcodes. README.md says how it is run."""

import argparse
import collections
import os
import random
import re
import subprocess
import sys
import tempfile

ROOT = os.path.dirname(os.path.dirname(os.path.abspath(__file__)))
TABLE = os.path.join(ROOT, "crates/x86_grammar/src/table.rt")
PROGRAM = os.path.join(ROOT, "crates/x86_spellings")

# ---- the table, and what bytes spell by it, read here a second time: Intel SDM volume 2, sections 2.1 to 2.2.1

FIELDS = "map byte span slash digit side width_class need immediate form kind detail lock rep".split()
ROW = re.compile(r"row!\((\w+) 0x(\w+) (\d+) (\w+)(?:\((\w+)\))? (\w+) (\w+) (\w+) (\w+) (\w+) (\w+)(?:\((\w+)\))? (\w+) (\w+)\)")
Row = collections.namedtuple("Row", FIELDS)

LOW8 = ["al", "cl", "dl", "bl", "spl", "bpl", "sil", "dil"] + [f"r{n}b" for n in range(8, 16)]
HIGH8 = ["ah", "ch", "dh", "bh"]
WORDS = ["ax", "cx", "dx", "bx", "sp", "bp", "si", "di"]
REGISTERS = {
    8: LOW8,
    16: WORDS + [f"r{n}w" for n in range(8, 16)],
    32: ["e" + name for name in WORDS] + [f"r{n}d" for n in range(8, 16)],
    64: ["r" + name for name in WORDS] + [f"r{n}" for n in range(8, 16)],
}
SIZES = {8: "BYTE PTR ", 16: "WORD PTR ", 32: "DWORD PTR ", 64: "QWORD PTR "}
CONDITIONS = "o no b ae e ne be a s ns p np l ge le g".split()
OWN_PREFIXES = {0x66: "66", 0xF0: "F0", 0xF3: "F3"}
OTHER_PREFIXES = {0x26, 0x2E, 0x36, 0x3E, 0x64, 0x65, 0x67, 0xF2}
WITHOUT_OPERANDS = {
    "Leave", "PushF", "PopF", "Clc", "Stc", "Cmc", "Cld", "Std", "Hlt", "Sti", "Cli", "Ud2", "Nop", "Pause", "Int3", "Ret",
}


class Short(Exception):
    """More bytes would make a spelling."""


class Unknown(Exception):
    """No front is a spelling, and no more bytes would make one; so many bytes tell it, by this reason."""

    def __init__(self, length, reason):
        super().__init__(reason)
        self.length = length
        self.reason = reason


def read_table():
    rows = collections.defaultdict(list)
    for match in ROW.finditer(open(TABLE, encoding="utf-8").read()):
        row = dict(zip(FIELDS, match.groups()))
        row.update(
            map=1 if row["map"] == "One" else 2,
            byte=int(row["byte"], 16),
            span=int(row["span"]),
            digit=row["digit"] and int(row["digit"], 0),
            lock=row["lock"] == "true",
            rep=row["rep"] == "true",
        )
        row = Row(**row)
        for byte in range(row.byte, row.byte + row.span):
            rows[row.map, byte].append(row)
    return rows


ROWS = read_table()


def signed(value, bits):
    return value - (1 << bits) if bits and value >> (bits - 1) & 1 else value


def with_sign(value):
    return f"-0x{-value:x}" if value < 0 else f"+0x{value:x}"


class Decoding:
    """Reads one spelling from the front of bytes."""

    def __init__(self, data):
        self.data = data
        self.length = 0
        self.prefixes = set()
        self.rex = None

    def take(self, count):
        if self.length + count > len(self.data):
            raise Short
        piece = self.data[self.length : self.length + count]
        self.length += count
        return piece

    def refuse(self, reason):
        raise Unknown(self.length, reason)

    def rex_bit(self, bit):
        return self.rex is not None and bool(self.rex >> bit & 1)

    def head(self):
        while True:
            byte = self.take(1)[0]
            if byte not in OWN_PREFIXES:
                break
            if OWN_PREFIXES[byte] in self.prefixes:
                self.refuse("a prefix stands twice")
            self.prefixes.add(OWN_PREFIXES[byte])
            if "F3" in self.prefixes and len(self.prefixes) > 1:
                self.refuse("F3 stands with 66 or F0")
        if 0x40 <= byte < 0x50:
            self.rex = byte
            byte = self.take(1)[0]
        if byte in OTHER_PREFIXES:
            self.refuse("a prefix that the table has not")
        if self.rex is not None and (byte in OWN_PREFIXES or 0x40 <= byte < 0x50):
            self.refuse("REX isn't directly before the opcode")
        self.map = 1
        if byte == 0x0F:
            self.map = 2
            byte = self.take(1)[0]
        self.byte = byte

    def takes(self, row):
        """Why the row can't have these prefixes and this REX byte, or None."""
        if "66" in self.prefixes and row.width_class not in "VWN":
            return "66 where the row has none"
        if "F0" in self.prefixes and not row.lock:
            return "LOCK where the row has none"
        if "F3" in self.prefixes and not row.rep:
            return "F3 where the row has none"
        if row.rep and "F3" not in self.prefixes:
            return "an opcode that the table has not"
        if row.need == "Wide" and not self.rex_bit(3):
            return "no REX.W where the row wants it"
        if row.need == "NoB" and self.rex_bit(0) or row.need == "NotAcc" and not self.rex_bit(0) and self.byte == row.byte:
            return "another row"
        return None

    def find_row(self):
        rows = ROWS.get((self.map, self.byte), [])
        if not rows:
            self.refuse("an opcode that the table has not")
        reasons = [self.takes(row) for row in rows]
        rows = [row for row, reason in zip(rows, reasons) if reason is None]
        if not rows:
            self.refuse(next((r for r in reasons if r != "another row"), reasons[0]))
        self.modrm = None
        if rows[0].slash != "None":
            self.modrm = self.take(1)[0]
            rows = [row for row in rows if self.fits(row)]
            if not rows:
                self.refuse("LOCK before a register" if self.locks_register() else "a ModRM byte that the row has not")
        assert len(rows) == 1
        return rows[0]

    def in_memory(self):
        return self.modrm >> 6 != 3

    def fits_digit(self, row):
        return row.slash == "Any" or row.digit == (self.modrm >> 3 & 7 if row.slash == "Digit" else self.modrm)

    def fits(self, row):
        side = row.side == "Any" or (row.side == "Mem") == self.in_memory()
        return self.fits_digit(row) and side and ("F0" not in self.prefixes or self.in_memory())

    def locks_register(self):
        rows = ROWS[self.map, self.byte]
        return "F0" in self.prefixes and not self.in_memory() and any(row.lock and self.fits_digit(row) for row in rows)

    def width(self, row):
        wide = self.rex_bit(3)
        narrow = 16 if "66" in self.prefixes else 32
        return {"B": 8, "V": 64 if wide else narrow, "W": narrow, "Q": 64, "N": 64, "L": 64 if wide else 32}[row.width_class]

    def register(self, width, number):
        if width == 8 and self.rex is None:
            return LOW8[number] if number < 4 else HIGH8[number - 4]
        return REGISTERS[width][number]

    def place(self):
        """The place in memory that mod and rm name."""
        mod, field = self.modrm >> 6, self.modrm & 7
        index = None
        has_sib = field == 4
        if has_sib:
            sib = self.take(1)[0]
            field = sib & 7
            number = (sib >> 3 & 7) + 8 * self.rex_bit(1)
            if number != 4:
                index = f"{REGISTERS[64][number]}*{1 << (sib >> 6)}"
        no_base = mod == 0 and field == 5
        count = 1 if mod == 1 else 4 if mod == 2 or no_base else 0
        offset = signed(int.from_bytes(self.take(count), "little"), 8 * count)
        if no_base and not has_sib:
            return f"[rip{with_sign(offset)}]"
        names = [] if no_base else [REGISTERS[64][field + 8 * self.rex_bit(0)]]
        names += [] if index is None else [index]
        return "[" + "+".join(names) + (with_sign(offset) if offset or not names else "") + "]"

    def text(self, row, width, place, operand, register, value, raw):
        kind, form = row.kind, row.form
        name = (row.detail if kind in ("Alu", "Unary", "Shift", "ShiftOne", "ShiftCl", "Bit") else kind).lower()
        opcode_register = self.register(width, (self.byte & 7) + 8 * self.rex_bit(0))
        accumulator = REGISTERS[width][0]
        condition = CONDITIONS[self.byte & 15]
        number = lambda bits: f"0x{value & (1 << bits) - 1:x}"
        if kind in WITHOUT_OPERANDS:
            return name
        simple = {
            "MovZx": f"movzx {register},{operand}",
            "MovSx": ("movsxd" if row.detail == "D" else "movsx") + f" {register},{operand}",
            "Imul2": f"imul {register},{operand}",
            "Lea": f"lea {register},{place}",
            "Lidt": f"lidt {place}",
            "ShiftOne": f"{name} {operand},0x1",
            "ShiftCl": f"{name} {operand},cl",
            "Bswap": f"bswap {opcode_register}",
            "SetCc": f"set{condition} {operand}",
            "CMov": f"cmov{condition} {register},{operand}",
            "JmpTo": f"jmp {operand}",
            "CallReg": f"call {operand}",
            "Pop": f"pop {opcode_register}",
            "Widen": {16: "cbw", 32: "cwde"}.get(width, "cdqe"),
            "SignFill": {16: "cwd", 32: "cdq"}.get(width, "cqo"),
            "InDx": f"in {accumulator},dx",
            "OutDx": f"out dx,{accumulator}",
            "Iret": "iretq",
            "NopAt": f"nop {operand}",
            "Endbr": "endbr64",
            "Fence": {0xE8: "lfence", 0xF0: "mfence", 0xF8: "sfence"}.get(row.digit),
        }
        if kind in simple:
            return simple[kind]
        if kind in ("Bsf", "Bsr"):
            return f"{name} {register},{operand}"
        if kind in ("Unary", "Inc", "Dec"):
            return f"{name} {operand}"
        if kind == "Imul3":
            return f"imul {register},{operand},{number(width)}"
        if kind == "Shift":
            return f"{name} {operand},0x{raw:x}"
        if kind == "Push":
            return f"push {opcode_register if form == 'O' else number(64)}"
        if kind == "RetImmediate":
            return f"ret 0x{raw:x}" if raw else "ret"
        if kind == "Jcc":
            return f"j{condition} {with_sign(value)}"
        if kind in ("Jmp", "Call"):
            return f"{name} {with_sign(value)}"
        if kind == "In":
            return f"in {accumulator},0x{raw:x}"
        if kind == "Out":
            return f"out 0x{raw:x},{accumulator}"
        if kind == "Int":
            return "int3" if raw == 3 else f"int 0x{raw:x}"
        first = {"EG": operand, "EI": operand, "GE": register, "AI": accumulator, "OI": opcode_register, "OA": opcode_register}[form]
        second = {"EG": register, "GE": operand, "OA": accumulator}.get(form)
        return f"{name} {first},{second or number(8 if kind == 'Bit' else width)}"

    def run(self):
        """The length and the text."""
        self.head()
        row = self.find_row()
        width = self.width(row)
        source = {"B": 8, "W": 16, "D": 32}[row.detail] if row.kind in ("MovZx", "MovSx") else width
        place = operand = register = None
        if self.modrm is not None:
            if self.in_memory():
                place = self.place()
                operand = SIZES[source] + place
            else:
                operand = self.register(source, (self.modrm & 7) + 8 * self.rex_bit(0))
            register = self.register(width, (self.modrm >> 3 & 7) + 8 * self.rex_bit(2))
        count = {"None": 0, "B": 1, "W": 2, "D": 4, "Z": 2 if width == 16 else 4, "V": width // 8}[row.immediate]
        raw = int.from_bytes(self.take(count), "little")
        text = self.text(row, width, place, operand, register, signed(raw, 8 * count), raw)
        return self.length, ("lock " if "F0" in self.prefixes else "") + text


def by_table(data):
    """`(length, text)`, or `Short` or `Unknown` as a value."""
    try:
        return Decoding(data).run()
    except (Short, Unknown) as fault:
        return fault


# ---- the byte strings

EVERY_PREFIX = [0x66, 0xF2, 0xF3, 0x2E, 0x3E, 0x26, 0x36, 0x64, 0x65, 0x67, 0xF0]
LONGEST = 17


def some_bytes(rng, count):
    """Random bytes, with more of those at the edges than by chance."""
    edges = (0, 0x7F, 0x80, 0xFF, 0x04, 0x05, 0x24, 0x25)
    return bytes(rng.choice(edges) if rng.random() < 0.15 else rng.getrandbits(8) for _ in range(count))


def some_opcode(rng):
    """An opcode of the table, with its ModRM byte where that is fixed or begins one of its digits."""
    key = rng.choice(sorted(ROWS))
    row = rng.choice(ROWS[key])
    opcode = bytes([0x0F] if key[0] == 2 else []) + bytes([key[1]])
    if row.slash == "Digit" and rng.random() < 0.8:
        opcode += bytes([rng.getrandbits(8) & 0xC7 | row.digit << 3])
    elif row.slash == "Byte" and rng.random() < 0.8:
        opcode += bytes([row.digit])
    return opcode


def some_prefixes(rng):
    """66, F0 and F3 as they may stand, or nearly so, and a REX byte."""
    prefixes = b""
    if rng.random() < 0.35:
        prefixes = bytes(rng.choices((0x66, 0xF0, 0xF3), k=rng.choice((1, 1, 1, 2))))
    return prefixes + (bytes([0x40 | rng.getrandbits(4)]) if rng.random() < 0.5 else b"")


def some_string(rng):
    which = rng.random()
    if which < 0.12:
        return bytes(rng.getrandbits(8) for _ in range(rng.randint(1, LONGEST)))
    if which < 0.22:
        opcode = bytes([rng.getrandbits(8)]) if rng.random() < 0.5 else bytes([0x0F, rng.getrandbits(8)])
        return (some_prefixes(rng) + opcode + some_bytes(rng, rng.randint(0, 12)))[:LONGEST]
    if which < 0.42:
        rex = [0x40 | rng.getrandbits(4) for _ in range(3)]
        prefixes = bytes(rng.choices(EVERY_PREFIX + rex, k=rng.choice((1, 2, 2, 3, 3, 4, 5, 6, 9, 14))))
        return (prefixes + some_opcode(rng) + some_bytes(rng, rng.randint(0, 12)))[:LONGEST]
    string = some_prefixes(rng) + some_opcode(rng) + some_bytes(rng, 14)
    if which < 0.85:
        return string[:LONGEST]
    return string[: rng.randint(1, 9)]


def strings(count, seed):
    """So many different strings, the same for each seed."""
    rng = random.Random(seed)
    found = {}
    while len(found) < count:
        found[some_string(rng)] = None
    return list(found)


def completed(data):
    """A spelling by the table that begins with these bytes, which are too short."""
    for zeros in (bytes(15), bytes([0xC0]) + bytes(14)):
        for byte in range(256):
            for more in (bytes([byte]) + zeros, bytes([byte, 0xFA]), bytes([byte, 0xE8])):
                answer = by_table(data + more)
                if isinstance(answer, tuple) and answer[0] > len(data):
                    return (data + more)[: answer[0]]
    raise AssertionError(f"no spelling begins with {data.hex()}")


# ---- what objdump says

# Longer than the longest string with an instruction at its last byte, so that objdump begins anew at each slot.
SLOT = 32
SLOT_BEGINS = r"^ *([0-9a-f]*[02468ace])?0:"
LINE = re.compile(r"^\s*([0-9a-f]+):\t((?:[0-9a-f]{2} )+)\s*\t?(.*)$")
DROPPED = re.compile(r"^(rex(\.\w+)?|data16)\s+")
PREFIX_WORD = re.compile(r"^(rex(\.\w+)?|data16|lock|repz|repnz|cs|ds|es|fs|gs|ss|addr32|bnd|notrack|xacquire|xrelease)$")


def plain_place(match):
    """A place in memory as x86_spellings writes it."""
    place = re.sub(r"\+?riz\*\d", "", match.group(1))
    if place.startswith("rip"):
        place = "rip" + with_sign(signed(int(place[3:], 16) & 2**64 - 1, 64))
    else:
        place = re.sub(r"[+-]0x0$", "", place)
    if place == "" or re.match(r"^[+-]?0x|^$", place):
        place = with_sign(signed(int(place or "0", 16) & 2**64 - 1, 64))
    return f"[{place}]"


def plain_text(text, after):
    """objdump's text as x86_spellings writes it; `after` is the next instruction's address."""
    text = re.sub(r"\s+", " ", text.split("#")[0]).strip()
    lock = False
    while True:
        if text.startswith("lock "):
            lock, text = True, text[5:]
        elif DROPPED.match(text):
            text = DROPPED.sub("", text)
        else:
            break
    text = re.sub(r"(?<![a-z])ds:(0x[0-9a-f]+)", r"[\1]", text)
    text = re.sub(r"\[([^\]]*)\]", plain_place, text)
    text = re.sub(r"^movabs ", "mov ", text)
    text = re.sub(r"^((?:rol|ror|shl|shr|sar) .*),1$", r"\1,0x1", text)
    jump = re.match(r"^(j\w+|call) 0x([0-9a-f]+)$", text)
    if jump:
        text = f"{jump.group(1)} {with_sign(signed(int(jump.group(2), 16) - after & 2**64 - 1, 64))}"
    if text == "int 0x3":
        text = "int3"
    if text == "ret 0x0":
        text = "ret"
    return ("lock " if lock else "") + text


def by_objdump(data):
    """For each string `(length, text)`, with the text `(bad)` where it is no instruction; NOPs stand behind each."""
    with tempfile.NamedTemporaryFile() as file:
        for string in data:
            file.write(string + b"\x90" * (SLOT - len(string)))
        file.flush()
        command = ["objdump", "-D", "-z", "-b", "binary", "-m", "i386:x86-64", "-M", "intel", "-w", "--insn-width=16", file.name]
        process = subprocess.Popen(command, stdout=subprocess.PIPE)
        begins = subprocess.Popen(["grep", "-E", SLOT_BEGINS], stdin=process.stdout, stdout=subprocess.PIPE, text=True)
        answers = [None] * len(data)
        for line in begins.stdout:
            match = LINE.match(line)
            if not match:
                continue
            address = int(match.group(1), 16)
            if address % SLOT:
                continue
            length = len(match.group(2)) // 3
            answers[address // SLOT] = (length, plain_text(match.group(3), address + length))
        if process.wait() != 0 or None in answers:
            sys.exit("objdump didn't answer for each string")
    return answers


# ---- what the program says

# rt try gives at most 1 MiB of output of each file.
CHUNK = 12_000


def line_of(data, answer):
    """The line of x86_spellings that tells whether the program answers as the table does, and what it must print."""
    if isinstance(answer, tuple):
        return f"spelling {data[:answer[0]].hex()} ?", f"spells {answer[1]}"
    if isinstance(answer, Unknown):
        return f"unknown {data[:answer.length].hex()}", "ok"
    return f"spelling {data.hex()}00 ?", None


def is_as_wanted(printed, wanted):
    """Bytes that are too short have no text: the program says that a front isn't short where they aren't."""
    return printed != "a front isn't short" if wanted is None else printed == wanted


class Program:
    """x86_spellings, which begins to run at once: a built one, or with no proof by rt try."""

    def __init__(self, lines, path):
        self.count = len(lines)
        self.folder = tempfile.TemporaryDirectory()
        self.output = tempfile.TemporaryFile("w+")
        names = []
        for at in range(0, len(lines), CHUNK):
            names.append(os.path.join(self.folder.name, f"{at:07}"))
            with open(names[-1], "w", encoding="utf-8") as file:
                file.write("\n".join(lines[at : at + CHUNK]) + "\n")
        command = ["rt", "try", "--steps", "1000", "--seconds", "600", "--cases", self.folder.name]
        if path:
            script = 'for name in "$@"; do echo "== $name"; "$PROGRAM" < "$name"; done'
            command = ["env", f"PROGRAM={os.path.abspath(path)}", "sh", "-c", script, "", *names]
        self.process = subprocess.Popen(command, cwd=PROGRAM, stdout=self.output, stderr=subprocess.STDOUT)

    def answers(self):
        """What it printed for each line."""
        self.process.wait()
        self.output.seek(0)
        answers = []
        for part in re.split(r"^== .*\n", self.output.read(), flags=re.M)[1:]:
            answers += part.splitlines()[:CHUNK]
        self.folder.cleanup()
        return answers[: self.count] if len(answers) >= self.count else sys.exit(f"the program answered {len(answers)} lines")


# ---- how they compare

def same_text(table, objdump):
    return table == objdump or (table == "nop" and re.match(r"^xchg (ax,ax|eax,eax|rax,rax)$", objdump))


def compare(data, table, objdump):
    """The class of a string, by what the table and objdump say of it."""
    length, text = objdump
    bad = "(bad)" in text
    prefix_alone = all(PREFIX_WORD.match(word) for word in text.split())
    if isinstance(table, tuple):
        if bad:
            return "DIFFER: an instruction by the table, none by objdump"
        if table[0] != length:
            return "DIFFER: the length"
        if not same_text(table[1], text):
            ports = re.match(r"^(in|out) ", text) and 0x66 in data[:length]
            return "DIFFER: IN and OUT with 66 and REX.W" if ports else "DIFFER: the text"
        return "agree: an instruction, its length and its text"
    if bad:
        return "agree: no instruction"
    # BTS, BTR and BTC of memory by a register's index may be locked; the table has no row for them.
    lockable = re.match(r"^lock bt[src] .*\[", text)
    if table.reason.startswith("LOCK") and not lockable:
        return f"processors refuse it (#UD): {table.reason}"
    if prefix_alone:
        return f"not in the subset: objdump takes the prefix alone ({table.reason})"
    return f"not in the subset: {table.reason}"


def main():
    parser = argparse.ArgumentParser(description=__doc__)
    parser.add_argument("--count", type=int, default=500_000, help="how many byte strings")
    parser.add_argument("--seed", type=int, default=1)
    parser.add_argument("--program", help="a built x86_spellings; else it is run by rt try")
    options = parser.parse_args()
    data = strings(options.count, options.seed)
    table = [by_table(string) for string in data]
    # Bytes that are too short are shown to objdump with a spelling's other bytes behind them.
    shown = [completed(string) if isinstance(answer, Short) else string for string, answer in zip(data, table)]
    spelled = [by_table(string) if isinstance(answer, Short) else answer for string, answer in zip(shown, table)]
    lines = [line_of(string, answer) for string, answer in zip(data, table)]
    program = Program([line for line, _ in lines], options.program)
    objdump = by_objdump(shown)
    answers = program.answers()
    classes = collections.OrderedDict()
    for string, answer, (_, wanted), printed, against, whole, said in zip(data, table, lines, answers, spelled, shown, objdump):
        if not is_as_wanted(printed, wanted):
            name = "DIFFER: the program from the table"
            print(f"{string.hex()}: the program says {printed}, and not {wanted}")
        else:
            name = compare(whole, against, said)
            if isinstance(answer, Short) and name.startswith("agree"):
                name = "agree: too short, and an instruction with more bytes"
        classes.setdefault(name, []).append((whole if isinstance(answer, Short) else string, against, said))
    for name in sorted(classes):
        string, answer, (length, text) = min(classes[name], key=lambda example: len(example[0]))
        ours = answer[1] if isinstance(answer, tuple) else "none"
        print(f"{len(classes[name]):7} {name}: {string.hex()} is {ours}; objdump: {length} bytes, {text}")
    print(f"{len(data)} strings, {sum(len(found) for name, found in classes.items() if name.startswith('DIFFER'))} differ")
    return 1 if any(name.startswith("DIFFER") for name in classes) else 0


if __name__ == "__main__":
    sys.exit(main())
