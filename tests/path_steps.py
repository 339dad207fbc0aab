#!/usr/bin/env python3
"""Counts the atomic stores and read-modify-writes of a validated read and of an exchange by its path, by one pass alone (`steps`).

    path_steps.py [OPERATIONS]     OPERATIONS (2000) and twice as many are run under callgrind

A validated read draws its stamp and stores nothing, or this fails.
"""

import pathlib
import sys

from steps import Steps, locked_instructions, steps_of

ROOT = pathlib.Path(__file__).resolve().parent.parent
PROGRAM = ROOT / "crates/path_race/out/path_race"


def main():
    operations = int(sys.argv[1]) if len(sys.argv) > 1 else 2000
    kinds = locked_instructions(PROGRAM)
    for mix, name in [("reads", "a validated read"), ("changes", "an exchange by its path, of 2 to 6 words")]:
        steps, instructions = steps_of(PROGRAM, operations, mix, kinds)
        print(f"{name}: {steps}; {instructions:.0f} instructions")
        if mix == "reads" and steps != Steps(0, 1, 0):
            sys.exit("FAILED: a validated read makes other steps than one draw")


if __name__ == "__main__":
    main()
