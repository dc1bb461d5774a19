"""The code of a guest for the plain model: names, flags, and instructions by GNU objdump."""

import re
import subprocess
import tempfile

CF, PF, AF, ZF, SF, IF, OF = 1, 4, 16, 64, 128, 512, 2048
NAMES = {}
for number, name in enumerate("ax cx dx bx sp bp si di".split()):
    NAMES.update({"r" + name: (number, 8), "e" + name: (number, 4), name: (number, 2)})
    NAMES[("al cl dl bl spl bpl sil dil".split())[number]] = (number, 1)
for number in range(8, 16):
    NAMES.update({f"r{number}": (number, 8), f"r{number}d": (number, 4), f"r{number}w": (number, 2), f"r{number}b": (number, 1)})
SIZES = {"BYTE": 1, "WORD": 2, "DWORD": 4, "QWORD": 8}
CONDITIONS = {"e": lambda f: f & ZF, "ne": lambda f: not f & ZF, "b": lambda f: f & CF, "ae": lambda f: not f & CF}
LOCAL = set("mov lea add sub xor or and shl shr rol imul cmp test inc dec je jne jmp div".split())


class Code:
    """The instructions of a code part, by objdump."""

    def __init__(self, payload, length):
        self.file = tempfile.NamedTemporaryFile(suffix=".bin")
        self.file.write(payload[:length])
        self.file.flush()
        self.length = length
        self.known = {}

    def at(self, rip):
        """The length and the text of the instruction at an address."""
        if rip not in self.known:
            out = subprocess.run(
                ["objdump", "-D", "-b", "binary", "-m", "i386:x86-64", "-M", "intel", "-w", "--insn-width=15",
                 f"--start-address={rip}", f"--stop-address={min(rip + 15, self.length)}", self.file.name],
                check=True, capture_output=True, text=True).stdout
            line = next(l for l in out.splitlines() if re.match(r"\s*[0-9a-f]+:\t", l))
            _, digits, text = line.split("\t")[:3]
            self.known[rip] = (len(digits.split()), text.split("#")[0].strip())
        return self.known[rip]


def parity(value):
    return PF if bin(value & 0xFF).count("1") % 2 == 0 else 0
