"""Counts the atomic stores and read-modify-writes that a program of the gate makes for one operation, under callgrind.

A store that is sequentially consistent is an `xchg` with memory here, a fetch_add a `lock xadd`, and a compare_exchange a `lock
cmpxchg`. Loads are plain moves, and aren't counted.
"""

import pathlib
import re
import subprocess
import tempfile
from collections import Counter
from dataclasses import astuple, dataclass

# A line of objdump: the address, the bytes and the instruction.
INSTRUCTION = re.compile(r"^ *([0-9a-f]+):\t[0-9a-f ]+\t(.*)$")
# A line of costs: an address, a line of the source and the count.
COSTS = re.compile(r"^0x([0-9a-f]+) \d+ (\d+)$")


@dataclass
class Steps:
    stores: float
    additions: float
    exchanges: float
    others: float = 0

    def __str__(self):
        numbers = [f"{number:6.2f}".rstrip("0").rstrip(".") for number in astuple(self)]
        stores, additions, exchanges, others = (number.strip() for number in numbers)
        text = f"{stores} stores, {additions} additions, {exchanges} compare-and-exchanges"
        return text if others == "0" else f"{text}, {others} others"


def kind_of(instruction):
    """The kind of a locked instruction, or None."""
    if instruction.startswith("lock "):
        operation = instruction.split()[1]
        return {"xadd": "additions", "cmpxchg": "exchanges"}.get(operation, "others")
    return "stores" if instruction.startswith("xchg ") and "(" in instruction else None


def locked_instructions(program):
    """The kind of each locked instruction of the program, by its address."""
    text = subprocess.run(["objdump", "-d", program], capture_output=True, text=True, check=True).stdout
    found = (INSTRUCTION.match(line) for line in text.splitlines())
    kinds = {int(line[1], 16): kind_of(line[2]) for line in found if line}
    return {address: kind for address, kind in kinds.items() if kind}


def counted(program, words, kinds):
    """How often a run with these words executed instructions of each kind of the program's own, and all instructions."""
    with tempfile.TemporaryDirectory() as folder:
        out = pathlib.Path(folder, "callgrind.out")
        subprocess.run(
            ["valgrind", "--tool=callgrind", "--dump-instr=yes", "--compress-strings=no", "--compress-pos=no",
             f"--callgrind-out-file={out}", program, *words],
            capture_output=True, check=True,
        )
        return count_lines(out.read_text().splitlines(), str(program), kinds)


def count_lines(lines, program, kinds):
    count, own, called = Counter(), False, False
    for line in lines:
        if line.startswith("ob="):
            own = line.endswith(program)
        if line.startswith("calls="):
            called = True
        elif costs := COSTS.match(line):
            # The line behind a call has the costs of the callee.
            if not called:
                count["all"] += int(costs[2])
                if own and (kind := kinds.get(int(costs[1], 16))):
                    count[kind] += int(costs[2])
            called = False
    return count


def steps_of(program, operations, words, kinds):
    """The steps of one operation of a run by one thread, which `words` tells apart, and all its instructions: what a run of twice as
    many has more."""
    once, twice = (counted(program, ["1", str(times * operations), "times", words], kinds) for times in (1, 2))
    each = {kind: (twice[kind] - once[kind]) / operations for kind in ["stores", "additions", "exchanges", "others", "all"]}
    return Steps(each["stores"], each["additions"], each["exchanges"], each["others"]), each["all"]
