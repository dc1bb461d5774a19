#!/usr/bin/env python3
"""Makes the cases of crates/asm_cases. README.md says how it is run."""

import glob
import os
import re
import struct
import subprocess
import sys
import tempfile

ROOT = os.path.dirname(os.path.dirname(os.path.abspath(__file__)))
SPELLINGS = os.path.join(ROOT, "crates/x86_spellings/stdin")
BY_HAND = os.path.join(ROOT, "tests/assembly.cases")
CASES = os.path.join(ROOT, "crates/asm_cases")
EXAMPLES = os.path.join(ROOT, "examples")
ROUNDS = 1000000  # of the loops of examples/bench
CONDITIONS = "o no b ae e ne be a s ns p np l ge le g".split()

WORDS = {"pushf": "pushfq", "popf": "popfq"}
SIZES = {"BYTE": 8, "WORD": 16, "DWORD": 32, "QWORD": 64}
LOW = "al cl dl bl spl bpl sil dil ah ch dh bh".split() + [f"r{n}b" for n in range(8, 16)]
WIDE = {
    16: "ax cx dx bx sp bp si di".split() + [f"r{n}w" for n in range(8, 16)],
    32: "eax ecx edx ebx esp ebp esi edi".split() + [f"r{n}d" for n in range(8, 16)],
    64: "rax rcx rdx rbx rsp rbp rsi rdi".split() + [f"r{n}" for n in range(8, 16)],
}
UNSIGNED = {"rol", "ror", "shl", "shr", "sar", "in", "out", "int", "ret"}
BIT_TESTS = {"bt", "bts", "btr", "btc"}


def width_of(operand):
    """The bits of an operand by GNU's text; None of a number."""
    if operand in LOW:
        return 8
    for bits, names in WIDE.items():
        if operand in names:
            return bits
    sized = re.match(r"(BYTE|WORD|DWORD|QWORD) PTR ", operand)
    return SIZES[sized.group(1)] if sized else None


def place(operand):
    """A place in memory by our text."""
    operand = re.sub(r"^(BYTE|WORD|DWORD|QWORD) PTR ", lambda m: m.group(1).lower() + " ", operand)
    operand = re.sub(r"\*([1248])", r"*0x\1", operand)
    return operand.replace("[+", "[").replace("[rip+0x0]", "[rip]")


def number(text, bits):
    """A number of so many bits with its sign."""
    n = int(text, 16)
    if n >= 1 << (bits - 1):
        n -= 1 << bits
    return hex(n)


def ours(text):
    """The text of an instruction by our rules, of GNU's text with the signed distances of x86_spellings."""
    lock = ""
    if text.startswith("lock "):
        lock, text = "lock ", text[5:]
    word, _, rest = text.partition(" ")
    word = WORDS.get(word, word)
    if not rest:
        return lock + word
    operands = rest.split(",")
    if re.fullmatch(r"[+-]0x[0-9a-f]+", operands[0]):
        return f"{word} rel {operands[0].lstrip('+')}"
    bits = width_of(operands[0]) or 64
    if word in BIT_TESTS:
        bits = 8
    made = []
    for operand in operands:
        if not re.fullmatch(r"0x[0-9a-f]+", operand):
            made.append(place(operand))
        elif word in UNSIGNED:
            made.append(operand)
        else:
            made.append(number(operand, bits))
    return f"{lock}{word} {','.join(made)}"


def spellings():
    for line in open(SPELLINGS, encoding="utf-8"):
        if line.startswith(("canonical ", "spelling ")):
            kind, digits, text = line.rstrip("\n").split(" ", 2)
            yield kind, digits, text


def by_gnu(texts):
    """The bytes of each text by GNU as, in hexadecimal digits."""
    with tempfile.TemporaryDirectory() as folder:
        source = os.path.join(folder, "all.s")
        made = os.path.join(folder, "all.o")
        with open(source, "w", encoding="utf-8") as out:
            out.write(".intel_syntax noprefix\n")
            for text in texts:
                out.write(text.replace("[+", "[") + "\n")
        listing = os.path.join(folder, "all.lst")
        subprocess.run(["as", "--64", f"-aln={listing}", "-o", made, source], check=True)
        bytes_of = {}
        for line in open(listing, encoding="utf-8"):
            match = re.match(r"\s*(\d+)\s+(?:[0-9a-f]{4}\s+)?([0-9A-F]+)(?:\s|$)", line)
            if match:
                at = int(match.group(1)) - 2
                bytes_of[at] = bytes_of.get(at, "") + match.group(2).lower()
        return [bytes_of.get(at) for at in range(len(texts))]


def by_hand():
    """The cases of the file, each with what it gives behind ` => `."""
    for line in open(BY_HAND, encoding="utf-8"):
        line = line.rstrip("\n")
        if not line:
            continue
        if line.startswith("#"):
            yield line, line
        else:
            yield tuple(line.split(" => "))


def conditions():
    """Each instruction with a condition: our text, and GNU's."""
    for condition in CONDITIONS:
        yield f"j{condition} rel 0x5", f"j{condition} .+7"
        yield f"j{condition} rel -0x100", f"j{condition} .-0xfa"
        yield f"set{condition} al", f"set{condition} al"
        yield f"cmov{condition} eax,ebx", f"cmov{condition} eax,ebx"


def spelled_out(text):
    """A file's text as the text of a case."""
    return text.replace("\\", "\\\\").replace("\n", "\\n").replace("\t", "\\t")


def image_line(image):
    """What `image` prints of the bytes of an image's file."""
    assert image[:8] == b"VMFLAT1\n"
    entry, code = struct.unpack("<QQ", image[8:24])
    return f"{entry} {code} {image[24:].hex()}"


def examples():
    """The guests of examples/, each as its text and its image; those of examples/bench by loops.py."""
    for source in sorted(glob.glob(os.path.join(EXAMPLES, "*.asm"))):
        with open(source, encoding="utf-8") as text, open(source[:-4] + ".img", "rb") as image:
            yield text.read(), image.read()
    for name in ("registers", "memory"):
        with tempfile.TemporaryDirectory() as folder:
            made = os.path.join(folder, name)
            loops = os.path.join(EXAMPLES, "bench/loops.py")
            subprocess.run([sys.executable, loops, name, str(ROUNDS), "image", made], check=True)
            with open(os.path.join(EXAMPLES, f"bench/{name}.asm"), encoding="utf-8") as text, open(made, "rb") as image:
                yield text.read(), image.read()


# the guest of the workload in GNU's words; jumps and displacements to labels have 32 bits
GUEST = """
.intel_syntax noprefix
start: mov ebx,0xfee00020
mov eax,dword ptr [rbx]
shr eax,24
mov ecx,dword ptr [rax*4+counts]
test ecx,ecx
{{disp32}} je counted
again: lock add dword ptr [total],1
dec ecx
{{disp32}} jne again
counted: lock add dword ptr [ready],1
test eax,eax
{{disp32}} je wait
hlt
wait: cmp dword ptr [ready],{cpus}
{{disp32}} jne wait
mov ebx,dword ptr [total]
mov ecx,8
mov edx,0x3f8
digit: rol ebx,4
mov eax,ebx
and eax,15
mov al,byte ptr [rax+digits]
out dx,al
dec ecx
{{disp32}} jne digit
mov al,10
out dx,al
hlt
{boot}
digits: .ascii "0123456789ABCDEF"
total: .long 0
ready: .long 0
counts: .long {counts}
"""
BOOT = """
boot: mov ebx,0xfee00300
mov dword ptr [rbx],0xc0600
{disp32} jmp start
"""


def counts_of(cpus, number):
    """The counts that `make CPUS NUMBER` takes: the generator of the C standard's example, modulo 2^31."""
    counts = []
    for _ in range(cpus):
        number = (1103515245 * number + 12345) % 2**31
        counts.append(1 + number % 10000)
    return counts


def workload_by_gnu(counts):
    """What `workload` prints, by GNU as and ld."""
    cpus = len(counts)
    text = GUEST.format(cpus=cpus, boot=BOOT if cpus > 1 else "", counts=",".join(map(str, counts)))
    with tempfile.TemporaryDirectory() as folder:
        source, made, linked, image = (os.path.join(folder, f"all.{end}") for end in ("s", "o", "elf", "bin"))
        with open(source, "w", encoding="utf-8") as out:
            out.write(text)
        subprocess.run(["as", "--64", "-o", made, source], check=True)
        subprocess.run(["ld", "-Ttext", "0", "-e", "0", "-o", linked, made], check=True)
        subprocess.run(["objcopy", "-O", "binary", "-j", ".text", linked, image], check=True)
        names = subprocess.run(["nm", linked], check=True, capture_output=True, text=True).stdout
        places = {line.split()[2]: int(line.split()[0], 16) for line in names.splitlines()}
        with open(image, "rb") as payload:
            return f"{places.get('boot', 0)} {places['digits']} {payload.read().hex()}"


def workloads():
    for cpus, number in ((1, 0), (1, 1), (2, 0), (16, 4294967295)):
        yield counts_of(cpus, number)
    yield [10000] * 16


def main():
    cases = list(by_hand())
    cases.append(("# the guests of examples",) * 2)
    cases += [(f"image {spelled_out(text)}", image_line(image)) for text, image in examples()]
    cases.append(("# workloads: make 1 0, make 1 1, make 2 0, make 16 4294967295, and sixteen counts of 10,000",) * 2)
    cases += [(f"workload {','.join(map(str, counts))}", workload_by_gnu(counts)) for counts in workloads()]
    cases.append(("# the canonical spellings of x86_spellings",) * 2)
    cases += [(f"code {ours(text)}", digits) for kind, digits, text in spellings() if kind == "canonical"]
    plain = [text for kind, _, text in spellings() if kind == "spelling" and not re.search(r" [+-]0x", text)]
    known = {text for kind, _, text in spellings() if kind == "canonical"}
    plain = [text for text in plain if text not in known]
    cases.append(("# lines by GNU as",) * 2)
    for text, digits in zip(plain, by_gnu(plain)):
        if digits:
            cases.append((f"code {ours(text)}", OTHERS.get(text, digits)))
    both = list(conditions())
    cases += [(f"code {text}", digits) for (text, _), digits in zip(both, by_gnu([gnu for _, gnu in both]))]
    cases.append(("# each line is given back",) * 2)
    texts = {ours(text): None for _, _, text in spellings()}
    texts |= {text: None for text, _ in both}
    cases += [(f"same {text}", "ok") for text in texts]
    with open(os.path.join(CASES, "stdin"), "w", encoding="utf-8") as out:
        out.writelines(f"{case}\n" for case, _ in cases)
    with open(os.path.join(CASES, "stdout"), "w", encoding="utf-8") as out:
        out.writelines(f"{result}\n" for _, result in cases)
    print(f"{len(cases)} lines")


# where GNU as doesn't write the least spelling
OTHERS = {
    "adc ax,0xff80": "661580ff",  # 15 is less than 83
    "mov cl,r14b": "418ace",  # the load form has the lesser REX byte
    "xchg ax,ax": "6687c0",  # 90 is NOP
    "xchg rax,rax": "4887c0",
}

if __name__ == "__main__":
    sys.exit(main())
