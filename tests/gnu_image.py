"""The image of an assembler text by GNU as, ld and objcopy."""

import os
import re
import struct
import subprocess
import tempfile

WORDS = {".dword": ".long", ".word": ".short", ".qword": ".quad"}


def in_gnu_words(line):
    """A line of our text in GNU's words; a jump to a label gets 32 bits."""
    line = line.split(";")[0].rstrip()
    label, statement = re.match(r"\s*(?:(\w+):)?\s*(.*)", line).groups()
    label = f"L_{label}: " if label else ""
    word, _, rest = statement.partition(" ")
    if word in WORDS:
        statement = f"{WORDS[word]} {named(rest)}"
    elif word in (".org", ".byte"):
        pass
    elif word == "call" or word[:1] == "j":
        relative = re.match(r"rel (-?\w+)$", rest)
        if relative:
            statement = f"{word} .+2+{int(relative.group(1), 0)}"
        else:
            statement = f"{'' if word == 'call' else '{disp32} '}{word} L_{rest}"
    else:
        statement = re.sub(r"\b(byte|word|dword|qword) \[", r"\1 ptr [", statement)
        first = re.match(r"((?:lock )?\w+) ?(.*)", statement)
        if first:
            operands = [named(o) for o in first.group(2).split(",")]
            operands = [f"offset {o}" if re.fullmatch(r"L_\w+", o) else o for o in operands]
            statement = f"{first.group(1)} {','.join(operands)}".rstrip()
            if len(operands) == 2 and re.match(r"r\d", operands[1]) and operands[0] in KNOWN and not re.match(r"r\d", operands[0]):
                statement = "{load} " + statement  # of two spellings of one length the lesser one has REX 41 here, not 44
    return label + statement


def named(text):
    """Labels among operands get their prefix."""
    return re.sub(r"(?<![\w])([a-z_]\w*)", lambda m: m.group(1) if m.group(1) in KNOWN else "L_" + m.group(1), text)


KNOWN = set("byte word dword qword ptr rip".split())
for r in "ax cx dx bx sp bp si di".split():
    KNOWN |= {r, "e" + r, "r" + r}
for n in range(8, 16):
    KNOWN |= {f"r{n}", f"r{n}d", f"r{n}w", f"r{n}b"}
KNOWN |= set("al cl dl bl ah ch dh bh spl bpl sil dil".split())


def run(*words):
    done = subprocess.run(words, capture_output=True, text=True)
    if done.returncode:
        raise SystemExit(done.stderr)
    return done.stdout


def image_of(text):
    """The bytes of the image's file."""
    lines, entry, data = [".intel_syntax noprefix"], None, None
    for line in text.splitlines():
        bare = line.split(";")[0].strip()
        if bare.startswith(".entry "):
            entry = bare.split()[1]
        elif bare == ".data":
            data = True
            lines.append("the_data:")
        else:
            lines.append(in_gnu_words(line))
    if not data:
        lines.append("the_data:")
    with tempfile.TemporaryDirectory() as folder:
        source, made, linked, image = (os.path.join(folder, f"all.{end}") for end in ("s", "o", "elf", "bin"))
        with open(source, "w", encoding="utf-8") as out:
            out.write("\n".join(lines) + "\n")
        run("as", "--64", "-o", made, source)
        run("ld", "-Ttext", "0", "-e", "0", "-o", linked, made)
        run("objcopy", "-O", "binary", "-j", ".text", linked, image)
        places = {l.split()[2]: int(l.split()[0], 16) for l in run("nm", linked).splitlines()}
        with open(image, "rb") as file:
            payload = file.read()
    at = places["L_" + entry] if entry else 0
    return b"VMFLAT1\n" + struct.pack("<QQ", at, places["the_data"]) + payload
