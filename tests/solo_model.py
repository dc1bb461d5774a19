"""A plain model of a run on one thread, for the guests of examples/: entries, actors and rounds as docs/DEFINITIONS.md has them.

It shares nothing with the program: GNU objdump reads the instructions, and what the guests don't use isn't there and is refused by
an assertion.
"""

import struct

from model_instructions import Machine


class Model(Machine):
    """The actors, and their rounds."""

    def exit_due(self, cpu):
        return self.meeting is not None or self.ended is not None or cpu.halted or cpu.left == 0

    def runner(self, i):
        """A turn of vCPU i's runner, with what it runs outside."""
        by, cpu = 1 + i, self.cpus[i]
        if self.out[by]:
            contexts = self.out[by]
            self.out[by] = None
            for _ in range(contexts):
                self.execute(cpu)
            self.add(by, "slice", i, contexts)
        self.runner_entry(by, i, cpu)
        if cpu.stage[0] == "running" and not self.exit_due(cpu):
            self.out[by] = self.run_ahead(cpu)

    def runner_entry(self, by, i, cpu):
        stage = cpu.stage[0]
        frozen, running = stage == "frozen", stage == "running"
        if stage == "idle" and (self.ended is None or self.due_turn(i)):
            cpu.stage = ("frozen", by)
            self.add(by, "claim", i)
        elif stage == "sleeping" and (cpu.eager() or self.named(i) or self.ended is not None):
            cpu.stage = ("frozen", by)
            self.add(by, "wake", i)
        elif frozen and self.due_turn(i):
            kind, named, done = self.meeting
            if kind == "sample":
                self.samples.append((i, cpu.ran))
            else:
                cpu.tmr = {e & 0xFF for e in self.entries if e & 0x8000 and e >> 56 in (i, 0xFF) and e & 0x900 == 0}
            done.add(i)
            if done == named:
                self.meeting = None
            self.add(by, "turn", i)
        elif frozen and not self.named(i) and self.ended is not None:
            cpu.stage = ("idle", None)
            self.add(by, "yield", i)
        elif frozen and cpu.startup is not None and self.ended is None:
            cpu.started, cpu.rip, cpu.startup = True, 4096 * cpu.startup, None
            self.add(by, "start", i)
        elif frozen and self.may_enter(cpu):
            grant = min(1024, self.limit - self.executed - self.open_grants())
            cpu.stage, cpu.left = ("running", by), grant
            vector = cpu.deliverable()
            cpu.ran_in_stay, cpu.took_in_stay = False, vector is not None
            if vector is not None:
                cpu.irr.remove(vector)
                cpu.isr.add(vector)
                self.deliver(cpu, vector)
            cpu.halted = False
            self.add(by, "enter", i, grant)
        elif frozen and not cpu.eager() and not self.named(i) and self.ended is None:
            cpu.stage = ("sleeping", by)
            self.add(by, "sleep", i)
        elif running and self.exit_due(cpu) and (cpu.ran_in_stay or cpu.took_in_stay or self.meeting or self.ended is not None):
            cpu.stage, cpu.left = ("frozen", by), 0
            self.add(by, "exit", i)
        elif running and cpu.left and not cpu.halted and self.ended is None and not self.is_local(cpu):
            self.execute(cpu)
            self.add(by, "step", i)

    def may_enter(self, cpu):
        ready = cpu.started and (not cpu.halted or cpu.deliverable() is not None)
        return ready and self.meeting is None and self.ended is None and self.executed + self.open_grants() < self.limit

    def run_ahead(self, cpu):
        """How many local instructions follow, at most the grant: they touch nothing but the vCPU, so a copy runs them."""
        kept = (list(cpu.regs), cpu.rip, cpu.flags, cpu.shadow, cpu.ran, cpu.left, cpu.ran_in_stay, self.executed)
        count = 0
        while cpu.left and self.is_local(cpu):
            self.execute(cpu)
            count += 1
        cpu.regs, cpu.rip, cpu.flags, cpu.shadow, cpu.ran, cpu.left, cpu.ran_in_stay, self.executed = kept
        return count

    def worker(self, by, disk):
        """A turn of a worker, with the image's call outside."""
        if self.out[by] is not None:
            request, sector, data, ok = self.out[by]
            self.out[by], disk.holder = None, None
            request["moved"] += 1
            request["failed"] |= not ok
            if sector is not None and ok:
                disk.image[512 * sector:512 * sector + 512] = data
                disk.doubt.discard(sector)
            elif sector is not None:
                disk.doubt.add(sector)
            self.add(by, "put" if ok else "fail", disk.number, request["id"])
        mine = next((r for r in disk.requests if r["by"] == by), None)
        pending = next((r for r in disk.requests if r["by"] is None and not r["blocked"]), None)
        going = self.ended is None
        if mine and (mine["moved"] == len(mine["places"]) or mine["failed"]):
            self.add(by, "finish", disk.number, mine["id"])
            self.finish(disk, mine)
        elif mine and mine["kind"] == 0:
            at, sector = mine["places"][mine["moved"]], mine["start"] + mine["moved"]
            self.ram[at:at + 512] = disk.guest[512 * sector:512 * sector + 512]
            mine["moved"] += 1
            self.add(by, "move", disk.number, mine["id"])
        elif mine and disk.holder is None:
            disk.holder, sector, data = by, None, None
            if mine["kind"] == 1:
                at, sector = mine["places"][mine["moved"]], mine["start"] + mine["moved"]
                data = bytes(self.ram[at:at + 512])
                disk.guest[512 * sector:512 * sector + 512] = data
            self.add(by, "hold", disk.number, mine["id"])
            ok = (disk.number, disk.calls) not in self.fails
            disk.calls += 1
            self.out[by] = (mine, sector, data, ok)
        elif not mine and pending and going:
            pending["by"] = by
            self.add(by, "begin", disk.number, pending["id"])
        elif going and disk.notified and self.chain(disk) is not None and len(disk.requests) < 64:
            self.add(by, "pull", disk.number)
            self.pull(disk)

    def control(self):
        """A turn of control, with what it writes outside."""
        if self.fault and self.ended is None:
            self.ended = "outside"
            self.add(0, "outside")
        elif self.ended is None:
            self.order()
        elif all(c.stage[0] == "idle" for c in self.cpus) and not any(r["by"] for d in self.disks for r in d.requests):
            if all(d.holder is None for d in self.disks) and self.meeting is None and not self.closed:
                self.closed = True
                self.add(0, "close")
        due = self.console[len(self.taken):]
        if due and not self.fault:
            self.fault = self.writes == self.console_fails
            self.writes += 1
            if not self.fault:
                self.taken += due

    def order(self):
        words = self.script[self.place]
        if words[0] == "wait":
            met = self.quiet() if words[1] == "quiet" else (len(self.console) if words[1] == "console" else self.executed) >= int(words[2])
            spent = self.executed == self.limit and any(c.eager() for c in self.cpus)
            if met or self.quiet():
                self.done("met" if met else "quiet")
            elif spent:
                self.ended = "budget"
                self.add(0, "budget")
        else:
            assert words == ["rendezvous"]
            if not self.begun and self.meeting is None:
                self.begun, self.samples = True, []
                self.open_meeting("sample")
                self.add(0, "meet")
            elif self.begun and self.meeting is None:
                self.begun = False
                self.done(" ".join(f"{i}:{n}" for i, n in self.samples))

    def done(self, answer):
        self.add(0, "done", self.place)
        self.answers.append((" ".join(self.script[self.place]), answer))
        self.place += 1
        if self.place == len(self.script):
            self.ended = "finished"

    def play(self):
        """The rounds up to Close."""
        while not self.closed:
            self.control()
            for i in range(len(self.cpus)):
                self.runner(i)
            by = 1 + len(self.cpus)
            for disk in self.disks:
                for _ in range(disk.workers):
                    self.worker(by, disk)
                    by += 1
        return self

    def status(self):
        """The exit status, where nothing outside failed."""
        return {"finished": 8 if any(d.doubt for d in self.disks) else 0, "budget": 5, "outside": 9}[self.ended]

    def report(self):
        lines = ["", f"ended {self.ended}", f"executed {self.executed}", f"console {len(self.console)}"]
        lines += [f"{k + 1} {order}: {answer}" for k, (order, answer) in enumerate(self.answers)]
        lines += [f"cpu {c.number} ran {c.ran} rip 0x{c.rip:016x}" for c in self.cpus]
        lines += [f"disk {d.number} finished {d.finished} cancelled 0 queued {len(d.requests)} doubt {len(d.doubt)}" for d in self.disks]
        return "\n".join(lines) + "\n"

    TAGS = dict(claim=1, start=2, enter=3, slice=4, step=5, exit=6, sleep=7, wake=8, turn=10, meet=11, pull=12, begin=13, move=14, hold=15,
                put=16, fail=16, finish=17, done=20, budget=21, outside=21, close=22)
    TAGS["yield"] = 9

    def journal_bytes(self):
        text = b"\x01VMJRNL1\n" + struct.pack("<Q", len(self.journal))
        for by, name, *fields in self.journal:
            text += struct.pack("<HB", by, self.TAGS[name])
            if name in ("enter", "slice"):
                text += struct.pack("<BH", *fields)
            elif name == "done":
                text += struct.pack("<H", *fields)
            elif name in ("budget", "outside"):
                text += b"\x01" if name == "budget" else b"\x02"
            elif name in ("begin", "move", "hold", "put", "fail", "finish"):
                text += struct.pack("<BI", *fields) + {"put": b"\x01", "fail": b"\x00"}.get(name, b"")
            else:
                text += bytes(fields)
        return text
