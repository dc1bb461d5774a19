"""The devices of the plain model: local APICs, I/O APIC, disks, and the state of a run."""

import struct

from model_code import IF, Code

WINDOWS = ((0xFEE00000, 0xFEE01000), (0xFEC00000, 0xFEC01000), (0xD0000000, 0xD0008000))


class Cpu:
    def __init__(self, number):
        self.number = number
        self.stage = ("idle", None)
        self.regs, self.rip, self.flags, self.idt = [0] * 16, 0, 2, (0, 0)
        self.shadow = self.started = self.halted = False
        self.startup = None
        self.irr, self.isr, self.tmr = set(), set(), set()
        self.svr, self.icr = 0xFF, 0
        self.left = self.ran = 0
        self.ran_in_stay = self.took_in_stay = False

    def deliverable(self):
        """The vector that its next entry takes, or None."""
        top = max(self.irr, default=0)
        if self.flags & IF and not self.shadow and top // 16 > max(self.isr, default=0) // 16:
            return top
        return None

    def eager(self):
        return self.startup is not None or (self.started and (not self.halted or self.deliverable() is not None))


class Disk:
    def __init__(self, number, content, ro, workers):
        self.number, self.ro, self.workers = number, ro, workers
        self.guest, self.image = bytearray(content), bytearray(content)
        self.sectors = len(content) // 512
        self.reset()
        self.status = self.select = self.features = 0
        self.next = 0
        self.doubt, self.holder, self.calls, self.syncs = set(), None, 0, 0
        self.finished = self.cancelled = 0

    def reset(self):
        self.size = self.ready = self.desc = self.avail = self.used = self.last = self.index = self.interrupt = 0
        self.notified = False
        self.requests = []


class Run:
    """A run from its start to Close. `fails` holds (disk, number) of the image calls that fail; `console_fails` the console's call that fails."""

    def __init__(self, image, cpus=1, memory=1 << 28, disks=(), script=("wait quiet",), limit=10_000_000, fails=(), console_fails=None):
        assert image[:8] == b"VMFLAT1\n"
        entry, self.code_length = struct.unpack("<QQ", image[8:24])
        payload = image[24:]
        self.ram = bytearray(memory)
        self.ram[:len(payload)] = payload
        self.code = Code(payload, self.code_length)
        self.cpus = [Cpu(i) for i in range(cpus)]
        self.cpus[0].started, self.cpus[0].rip = True, entry
        self.disks = [Disk(k, *d) for k, d in enumerate(disks)]
        self.script, self.limit = [o.split() for o in script], limit
        self.fails, self.console_fails = set(fails), console_fails
        self.journal, self.console, self.executed = [], bytearray(), 0
        self.place, self.answers, self.meeting, self.begun, self.samples = 0, [], None, False, []
        self.ended, self.closed = None, False
        self.select, self.entries, self.counts = 0, [0x10000] * 32, [0] * 32
        self.taken, self.writes, self.fault = bytearray(), 0, False
        self.out = [None] * (1 + cpus + sum(d.workers for d in self.disks))

    # entries

    def add(self, by, tag, *fields):
        self.journal.append((by, tag, *fields))

    def open_grants(self):
        return sum(c.left for c in self.cpus if c.stage[0] == "running")

    def quiet(self):
        waits = any(d.notified and self.chain(d) is not None and len(d.requests) < 64 for d in self.disks)
        return not (any(c.eager() for c in self.cpus) or self.meeting or waits or any(d.requests for d in self.disks))

    def open_meeting(self, kind):
        self.meeting = (kind, {c.number for c in self.cpus if c.started}, set())

    def named(self, i):
        return self.meeting is not None and i in self.meeting[1]

    def due_turn(self, i):
        return self.named(i) and i not in self.meeting[2]

    # memory and devices

    def read(self, at, size):
        for low, high in WINDOWS:
            if low <= at < high:
                assert size == 4 and at % 4 == 0
                return self.load(at)
        assert at + size <= len(self.ram), hex(at)
        return int.from_bytes(self.ram[at:at + size], "little")

    def write(self, cpu, at, size, value):
        for low, high in WINDOWS:
            if low <= at < high:
                assert size == 4 and at % 4 == 0
                return self.store(cpu, at, value)
        assert self.code_length <= at and at + size <= len(self.ram), hex(at)
        self.ram[at:at + size] = (value & ((1 << 8 * size) - 1)).to_bytes(size, "little")

    def load(self, at):
        assert at == 0xFEE00020, hex(at)
        return self.running.number << 24

    def post(self, i, vector):
        assert vector >= 16
        if self.cpus[i].svr & 0x100:
            self.cpus[i].irr.add(vector)

    def send_pin(self, pin):
        entry = self.entries[pin]
        assert entry >> 32 == 0 and entry & 0xF00 == 0
        self.post(0, entry & 0xFF)

    def settle(self, pin):
        """A level entry with its pin raised sends, unless it is masked or has been sent."""
        if self.entries[pin] & 0x8000 and not self.entries[pin] & 0x14000 and self.counts[pin]:
            self.entries[pin] |= 0x4000
            self.send_pin(pin)

    def line(self, disk):
        pin, now = 16 + disk.number, 1 if disk.interrupt else 0
        if self.counts[pin] != now:
            self.counts[pin] = now
            self.settle(pin)

    def store(self, cpu, at, value):
        if at >= 0xFEE00000:
            self.store_lapic(cpu, at - 0xFEE00000, value)
        elif at >= 0xFEC00000:
            self.store_ioapic(at - 0xFEC00000, value)
        elif (at - 0xD0000000) // 4096 < len(self.disks):
            disk = self.disks[(at - 0xD0000000) // 4096]
            self.store_window(disk, at % 4096, value)
            self.line(disk)

    def store_lapic(self, cpu, offset, value):
        if offset == 0xF0:
            cpu.svr = value
        elif offset == 0xB0:
            if cpu.isr:
                vector = max(cpu.isr)
                cpu.isr.remove(vector)
                if vector in cpu.tmr:
                    for pin in range(32):
                        if self.entries[pin] & 0x8000 and self.entries[pin] & 0xFF == vector and self.entries[pin] & 0x4000:
                            self.entries[pin] &= ~0x4000
                            self.settle(pin)
        elif offset == 0x300:
            mode, short = value >> 8 & 7, value >> 18 & 3
            targets = [[0], [cpu.number], range(len(self.cpus)), [i for i in range(len(self.cpus)) if i != cpu.number]][short]
            for i in targets:
                other = self.cpus[i]
                if mode == 0:
                    self.post(i, value & 0xFF)
                else:
                    assert mode == 6
                    if not other.started and other.startup is None:
                        other.startup = value & 0xFF
        else:
            raise AssertionError(hex(offset))

    def store_ioapic(self, offset, value):
        if offset == 0:
            self.select = value & 0xFF
            return
        assert offset == 0x10 and 0x10 <= self.select < 0x50 and self.select % 2 == 0
        pin = (self.select - 0x10) // 2
        old, kept = self.entries[pin], 0x1AFFF
        new = old & ~kept | value & kept
        if not new & 0x8000:
            new &= ~0x4000
        self.entries[pin] = new
        if (old ^ new) & kept & ~0x12000:
            self.open_meeting("routing")
        self.settle(pin)

    def store_window(self, disk, offset, value):
        if offset == 0x70:
            assert value
            disk.status |= value & 0xFF & ~64
            offered = 1 << 9 | 1 << 32 | (1 << 5 if disk.ro else 0)
            if disk.features & ~offered or not disk.features >> 32 & 1:
                disk.status &= ~8
        elif offset == 0x20:
            disk.features = value << 32 | disk.features & 0xFFFFFFFF if disk.select else disk.features >> 32 << 32 | value
        elif offset == 0x24:
            assert value in (0, 1)
            disk.select = value
        elif offset == 0x44:
            assert value == 1 and not disk.ready and disk.size
            disk.ready = 1
        elif offset in (0x38, 0x80, 0x90, 0xA0):
            if not disk.ready:
                setattr(disk, {0x38: "size", 0x80: "desc", 0x90: "avail", 0xA0: "used"}[offset], value)
        elif offset == 0x50:
            if value == 0 and disk.ready and disk.status & 4 and not disk.status & 64 and self.chain(disk) is not None:
                disk.notified = True
        elif offset == 0x64:
            disk.interrupt &= ~value
        else:
            raise AssertionError(hex(offset))

    # disks

    def chain(self, disk):
        """The descriptors of the next chain with its head, or None."""
        if not disk.ready or self.read(disk.avail + 2, 2) == disk.last:
            return None
        assert (self.read(disk.avail + 2, 2) - disk.last) % 65536 <= disk.size
        head = index = self.read(disk.avail + 4 + 2 * (disk.last % disk.size), 2)
        found = []
        while True:
            assert index < disk.size and len(found) < disk.size
            addr, length, flags, index = struct.unpack("<QIHH", self.ram[disk.desc + 16 * index:disk.desc + 16 * index + 16])
            assert not flags & 4 and addr + length <= len(self.ram) and not (flags & 2 and addr < self.code_length)
            found.append((addr, length, flags))
            if not flags & 1:
                return head, found

    def complete(self, disk, head, status_at, status, length):
        self.ram[status_at] = status
        at = disk.used + 4 + 8 * (disk.index % disk.size)
        self.ram[at:at + 8] = struct.pack("<II", head, length)
        disk.index = (disk.index + 1) % 65536
        self.ram[disk.used + 2:disk.used + 4] = struct.pack("<H", disk.index)
        if not self.read(disk.avail, 2) & 1:
            disk.interrupt |= 1
        self.line(disk)

    def pull(self, disk):
        head, found = self.chain(disk)
        assert len(found) >= 2 and found[0][1] == 16 and not found[0][2] & 2 and found[-1][1] == 1 and found[-1][2] & 2
        kind, _, sector = struct.unpack("<IIQ", self.ram[found[0][0]:found[0][0] + 16])
        data, status_at = found[1:-1], found[-1][0]
        count = sum(d[1] for d in data) // 512
        wrong = any(d[1] % 512 or bool(d[2] & 2) != (kind == 0) for d in data) or count > 8192
        disk.last = (disk.last + 1) % 65536
        if kind not in (0, 1, 4):
            self.complete(disk, head, status_at, 2, 1)
        elif kind != 4 and (wrong or sector + count > disk.sectors or (kind == 1 and disk.ro)):
            self.complete(disk, head, status_at, 1, 1)
        elif kind != 4 and count == 0:
            self.complete(disk, head, status_at, 0, 1)
        else:
            start, count = (None, 1) if kind == 4 else (sector, count)
            blocked = kind != 4 and any(r["end"] == start for r in disk.requests)
            places = [a + 512 * k for a, length, _ in data for k in range(length // 512)] if kind != 4 else [None]
            disk.requests.append({"id": disk.next, "kind": kind, "head": head, "status_at": status_at, "start": start, "places": places,
                                  "end": None if kind == 4 else start + count, "blocked": blocked, "by": None, "moved": 0, "failed": False})
            disk.next += 1
        disk.notified = disk.notified and self.chain(disk) is not None

    def finish(self, disk, request):
        disk.requests.remove(request)
        for other in disk.requests:
            if request["end"] is not None and other["start"] == request["end"]:
                other["blocked"] = False
        length = 1 + (512 * len(request["places"]) if request["kind"] == 0 and not request["failed"] else 0)
        self.complete(disk, request["head"], request["status_at"], 1 if request["failed"] else 0, length)
        disk.finished += 1

    # instructions
