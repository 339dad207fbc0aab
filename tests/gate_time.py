#!/usr/bin/env python3
"""Measures the processor time of the gate: runs `rt ci --anew` (of the crates that are named, and those below them, or
of all) and prints the seconds, user and system, that each crate's proof, its tests and its edits took, its lines on
standard error.

The whole is exact. Its parts are sampled from /proc while the gate runs, and scaled to the whole, so a part of less
than a second may be missed. Other work on the machine makes each second do less, so the figures rise under load."""

import os
import re
import resource
import subprocess
import sys
import threading
import time

ROOT = os.path.dirname(os.path.dirname(os.path.abspath(__file__)))
TICKS = os.sysconf("SC_CLK_TCK")
KINDS = ("proof", "tests", "edits")


def processes():
    """Each process with the one above it and its seconds, alone and with those of the ended processes below it."""
    found = {}
    for pid in filter(str.isdigit, os.listdir("/proc")):
        try:
            with open(f"/proc/{pid}/stat", encoding="utf-8", errors="replace") as stat:
                words = stat.read().rpartition(")")[2].split()
        except OSError:
            continue
        user, system, ended_user, ended_system = map(int, words[11:15])
        found[int(pid)] = int(words[1]), (user + system) / TICKS, (ended_user + ended_system) / TICKS
    return found


def part_of(pid):
    """The crate and the kind of work of a process of the gate, or nothing."""
    try:
        with open(f"/proc/{pid}/cmdline", "rb") as file:
            words = file.read().decode(errors="replace").split("\0")
        folder = os.readlink(f"/proc/{pid}/cwd")
    except OSError:
        return None
    if "--crate-name" in words:
        crate = words[words.index("--crate-name") + 1]
        kind = "edits" if re.search(r"/rt-edit-[^/]*$", folder) else "tests" if "--test" in words else "proof"
        return crate, kind
    made = re.search(r"/out/(\w+?)(_tests)?(\.by-rattle)?$", words[0])
    return (made.group(1), "tests") if made else None


class Sampler(threading.Thread):
    """Keeps, for each process of the gate that does a part of it, the most seconds that were seen of it."""

    def __init__(self, gate):
        super().__init__(daemon=True)
        self.gate, self.most, self.parts, self.is_over = gate, {}, {}, False

    def run(self):
        while not self.is_over:
            self.look()
            time.sleep(0.1)

    def look(self):
        found, seconds = processes(), {}
        for pid in found:
            line, at = [], pid
            while at in found and at != self.gate:
                line.append(at)
                at = found[at][0]
            if at != self.gate:
                continue
            for one in line:
                if one not in self.parts:
                    part = part_of(one)
                    if part:
                        self.parts[one] = part
            # the highest process of a part has the seconds of all below it
            top = next((one for one in reversed(line) if one in self.parts), None)
            if top:
                seconds[top] = seconds.get(top, 0) + found[pid][1] + found[pid][2]
        for pid, value in seconds.items():
            self.most[pid] = max(self.most.get(pid, 0), value)


def main():
    began = resource.getrusage(resource.RUSAGE_CHILDREN)
    gate = subprocess.Popen(["rt", "ci", "--anew", *sys.argv[1:]], cwd=ROOT, stdout=subprocess.PIPE, text=True)
    sampler = Sampler(gate.pid)
    sampler.start()
    told = ""
    for told in gate.stdout:
        print(told, end="", file=sys.stderr, flush=True)
    status = gate.wait()
    sampler.is_over = True
    ended = resource.getrusage(resource.RUSAGE_CHILDREN)
    whole = ended.ru_utime + ended.ru_stime - began.ru_utime - began.ru_stime
    table, seen = {}, sum(sampler.most.values())
    for pid, seconds in sampler.most.items():
        crate, kind = sampler.parts[pid]
        row = table.setdefault(crate, dict.fromkeys(KINDS, 0))
        row[kind] += seconds * whole / seen
    print(f"| Crate | {' | '.join(KINDS)} | all |")
    print("|---|---|---|---|---|")
    for crate, row in table.items():
        cells = [*(row[kind] for kind in KINDS), sum(row.values())]
        print(f"| `{crate}` | {' | '.join(f'{cell:.0f}' for cell in cells)} |")
    cells = [*(sum(row[kind] for row in table.values()) for kind in KINDS), whole]
    print(f"| all | {' | '.join(f'{cell:.0f}' for cell in cells)} |")
    print(f"{whole / 60:.1f} minutes of processor time, {seen / whole:.0%} of it seen in its part; {told.strip()}")
    return status


if __name__ == "__main__":
    sys.exit(main())
