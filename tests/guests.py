#!/usr/bin/env python3
"""Makes the cases of host_cases that run the guests of examples/. README.md says how it is run."""

import os
import re
import sys

sys.path.insert(0, os.path.dirname(os.path.abspath(__file__)))
from solo_model import Model  # noqa: E402

ROOT = os.path.dirname(os.path.dirname(os.path.abspath(__file__)))
CASES = os.path.join(ROOT, "crates/host_cases")
FIRST, LAST = "# guests of examples/, made by tests/guests.py", "# the end of the guests of examples/"

# how often a file of this kind is asked for its length or read, the end of each counted, and what the journal takes
READS = {"configuration": 4, "plan alone": 3, "image": 3, "disk": 4, "script": 3}
SAVE = "make, write 00, sync, write the text, sync, write 01, sync".split(", ")


def content(name):
    with open(os.path.join(ROOT, name), "rb") as file:
        return file.read()


def spelled(data):
    """Bytes as a case spells them."""
    parts = []
    for run in re.finditer(rb"(?s)(.)\1{7,}|(?:(?!(.)\2{7,}).)+", data):
        piece = run.group(0)
        if run.group(1):
            for at in range(0, len(piece), 100000):
                parts.append(f"{piece[0]:02x}*{min(100000, len(piece) - at)}")
        else:
            parts.append(piece.hex())
    return "+".join(parts)


def text(words):
    return spelled(words.encode())


class Guest:
    """A guest of examples/ with the files that its configuration names."""

    def __init__(self, name, sectors=(), limit=None):
        self.name, self.conf = name, f"examples/{name}.conf"
        plan = dict(l.split("=", 1) for l in content(self.conf).decode().splitlines() if "=" in l and l[0] != "#")
        self.image, self.script = plan["flat.image"], plan.get("flat.script")
        self.cpus = int(plan.get("cpus", 1))
        slots = [k[:-len(".device")] for k in plan if plan[k] == "virtio-blk"]
        self.disks = [(plan[s + ".path"], s + ".ro" in plan, int(plan.get(s + ".workers", 2)), n) for s, n in zip(slots, sectors)]
        self.files = [self.conf, self.image] + ([self.script] if self.script else [])
        self.limit = limit

    def puts(self):
        return [f"put:{f}:{spelled(content(f))}>-" for f in self.files] + [f"put:{p}:{spelled(bytes(512 * n))}>-" for p, _, _, n in self.disks]

    def words(self, command, *more):
        limit = ["--limit", str(self.limit)] if self.limit else []
        return "|".join([f"run:{command}", self.conf, *more, *limit])

    def model(self, **how):
        orders = ["wait quiet"]
        if self.script:
            orders = [l for l in content(self.script).decode().splitlines() if l and l[0] != "#"]
        disks = [(bytes(512 * n), ro, workers) for _, ro, workers, n in self.disks]
        return Model(content(self.image), self.cpus, 1 << 28, disks, orders, self.limit or 10_000_000, **how).play()

    def calls(self):
        """What each call of the host is about, up to the end of a run with a journal."""
        kinds = [(self.conf, READS["configuration"]), (self.image, READS["image"])]
        kinds += [(p, READS["disk"]) for p, *_ in self.disks]
        kinds += [(self.script, READS["script"])] if self.script else []
        kinds += [(p, 1) for p, *_ in self.disks]
        return [name for name, count in kinds for _ in range(count)]


def whole(guest, fails=(), command="solo"):
    """A run with its journal, and the replay of that."""
    model = guest.model(fails=fails)
    words = guest.puts() + [f"fail_image:{guest.disks[d][0]}:{k}>-" for d, k in fails]
    words += [f"{guest.words(command, '--journal', 'j')}>{model.status()}", f"console>{spelled(bytes(model.console))}"]
    journal = model.journal_bytes()
    if command == "solo":
        words += [f"log>{text(model.report())}", f"file:j>{spelled(journal)}" if len(journal) < 500 else f"length:j>{len(journal)}"]
    words += [f"file:{p}>{spelled(bytes(disk.image))}" for (p, *_), disk in zip(guest.disks, model.disks)]
    words += [f"{guest.words('replay', 'j')}>0", f"console>{spelled(bytes(model.console))}"]
    if command == "solo":
        words.append(f"log>{text(model.report())}")
    return words


def bare(guest):
    """A run alone, of disks that take long to compare."""
    model = guest.model()
    return guest.puts() + [f"{guest.words('solo')}>{model.status()}", f"console>{spelled(bytes(model.console))}", f"log>{text(model.report())}"]


def host_fails(guest):
    """Each call of the host fails in turn: before the run, and then those of the journal."""
    calls, model = guest.calls(), guest.model()
    words, base = guest.puts(), 0
    for number, name in enumerate(calls):
        words += [f"fail:{base + number}>-", f"{guest.words('solo', '--journal', 'j')}>6", "console>", f"log>{text(f'host fault: {name}' + chr(10))}", f"failed>{name}"]
        base += number + 1
    yield words + [f"file:{p}>{spelled(bytes(512 * n))}" for p, _, _, n in guest.disks] + ["file:j>missing"]
    words, base = guest.puts(), 0
    for step in range(len(SAVE)):
        number = len(calls) + step
        words += [f"fail:{base + number}>-", f"{guest.words('solo', '--journal', f'j{step}')}>6", f"console>{spelled(bytes(model.console))}",
                  f"log>{text(f'host fault: j{step}' + chr(10))}", f"failed>j{step}"]
        base += number + 1
    words += [f"{guest.words('solo', '--journal', 'j')}>0", f"console>{spelled(bytes(model.console))}", f"length:j>{len(model.journal_bytes())}"]
    words += [f"file:{p}>{spelled(bytes(disk.image))}" for (p, *_), disk in zip(guest.disks, model.disks)]
    words += [f"{guest.words('replay', 'j0')}>7", f"log>{text('missing: j0' + chr(10))}"]
    for step in range(1, 6):
        kind = "short" if step == 1 else "gate"  # the file is empty, or its gate is shut
        words += [f"{guest.words('replay', f'j{step}')}>3", "console>", f"log>{text(f'bad journal j{step}: at 0: {kind}' + chr(10))}"]
    yield words + [f"{guest.words('replay', 'j6')}>0", f"console>{spelled(bytes(model.console))}"]


def console_fails(guest):
    """Each call of the console fails in turn: its journal is legal, and replays to all that the guest had sent."""
    calls = guest.model().writes
    for number in range(calls + 1):
        model = guest.model(console_fails=number)
        status = 9 if model.fault else model.status()
        log = "console fault\n" if model.fault else model.report()
        yield guest.puts() + [
            f"fail_console:{number}>-", f"{guest.words('solo', '--journal', 'j')}>{status}", f"console>{spelled(bytes(model.taken))}", f"log>{text(log)}",
            f"length:j>{len(model.journal_bytes())}", f"{guest.words('replay', 'j')}>0", f"console>{spelled(bytes(model.console))}",
            f"log>{text(model.report())}"]


def log_fails(guest):
    """The log fails at the report."""
    model = guest.model()
    return guest.puts() + ["fail_log:0>-", f"{guest.words('solo', '--journal', 'j')}>9", f"console>{spelled(bytes(model.console))}", "log>",
                           f"length:j>{len(model.journal_bytes())}", f"{guest.words('replay', 'j')}>0"]


def total_of(cpus, number):
    """The total of `make`: the generator of the C standard's example, modulo 2^31."""
    total = 0
    for _ in range(cpus):
        number = (1103515245 * number + 12345) % 2**31
        total += 1 + number % 10000
    return total


def make(cpus, number):
    total = total_of(cpus, number)
    said = f"{total:08X}\nworkload {cpus} {number} total {total}\n"
    return [f"run:make|{cpus}|{number}>0", f"console>{text(said)}", "log>"]


def groups():
    starts, spins, writes = Guest("starts"), Guest("spins", limit=20_000_000), Guest("writes", (1, 1))
    counts, disks, readonly = Guest("counts"), Guest("disks", (8, 8)), Guest("readonly", (8, 8))
    write, rewrite = Guest("write", (2,)), Guest("rewrite", (2,))
    yield "one vCPU starts another; one that never rests; two disks; four vCPUs that meet twice", [whole(g) for g in (starts, spins, writes, counts)]
    yield "two disks of two workers, and the second one read-only", [whole(disks), whole(readonly)]
    yield "each call of an image fails in turn, and then none", [whole(disks, [(d, k)]) for d in (0, 1) for k in range(4)]
    yield "a write that fails leaves its sector in doubt, and one that is made again doesn't", [
        whole(g, f) for g, f in ((write, []), (write, [(0, 0)]), (rewrite, []), (rewrite, [(0, 0)]), (rewrite, [(0, 1)]), (rewrite, [(0, 0), (0, 1)]))]
    yield "requests that are refused, and a flush; on a disk of 8,193 sectors the first one is too long alone", [
        whole(Guest("requests", (16, 4))), bare(Guest("requests", (8193, 4)))]
    yield "each call of the host fails in turn, before the run and at the journal", list(host_fails(disks))
    yield "each call of the console fails in turn, and then none", list(console_fails(disks))
    yield "the log fails at the report", [log_fails(disks)]


def workloads():
    """What `make` writes."""
    yield "workloads", [make(*m) for m in ((1, 0), (1, 1), (2, 0), (4, 500), (16, 15588))]


def threads():
    """What doesn't depend on who comes first, by `run`: guests that wait halted, so that they never spend their instructions on waiting."""
    counts, disks, readonly = Guest("counts"), Guest("disks", (8, 8)), Guest("readonly", (8, 8))
    write, rewrite = Guest("write", (2,)), Guest("rewrite", (2,))
    yield "guests of several vCPUs and disks on threads", [whole(g, f, "run") for g, f in (
        (Guest("writes", (1, 1)), []), (counts, []), (disks, []), (readonly, []),
        (disks, [(1, 2)]), (write, [(0, 0)]), (rewrite, [(0, 0)]), (rewrite, [(0, 0), (0, 1)]))]


def stopped():
    """No exception of the guest has a gate."""
    image = b"VMFLAT1\n" + bytes(8) + b"\x02" + bytes(7) + b"\x0f\x0b"
    report = "\nended stop cpu 0 gate 6 rip 0x0000000000000000\nexecuted 0\nconsole 0\ncpu 0 ran 0 rip 0x0000000000000000\n"
    return "an instruction that stops the guest: the program ends with this status", [
        [f"put:u.img:{spelled(image)}>-", "run:solo|u.img>4", "console>", f"log>{text(report)}"]]


def replaced(path, lines):
    """A file with its part between the two titles exchanged, or with it at its end."""
    with open(path, encoding="utf-8") as file:
        old = file.read().splitlines()
    if FIRST in old:
        old[old.index(FIRST):old.index(LAST) + 1] = lines
    else:
        old += lines
    with open(path, "w", encoding="utf-8") as file:
        file.write("\n".join(old) + "\n")


def main():
    cases, wanted = [FIRST], [FIRST]
    chosen = [] if "--threads-alone" in sys.argv else list(groups()) + (list(workloads()) if "--make" in sys.argv else [])
    if "--threads" in sys.argv or "--threads-alone" in sys.argv:
        chosen += threads()
    for title, lines in [*chosen, stopped()]:
        cases.append("# " + title)
        wanted.append("# " + title)
        for words in lines:
            cases.append("mem " + " ".join(words))
            wanted.append(f"ok {len(words)}")
    if "--print" in sys.argv:
        print("\n".join(cases))
        return
    replaced(os.path.join(CASES, "stdin"), cases + [LAST])
    replaced(os.path.join(CASES, "stdout"), wanted + [LAST])


main()
