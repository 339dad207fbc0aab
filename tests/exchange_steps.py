#!/usr/bin/env python3
"""Counts the atomic stores and read-modify-writes of an exchange by one pass alone, for exchanges of 2, 4 and 6 words (`steps`).

    exchange_steps.py [EXCHANGES] [PLAIN]     EXCHANGES (2000) and twice as many are run under callgrind, and what the longer run has
                                              more of each locked instruction is taken by the number of exchanges; PLAIN is the plain
                                              program, bench/exchange_stress.rs, whose own count is printed beside
"""

import pathlib
import subprocess
import sys

from steps import Steps, locked_instructions, steps_of

ROOT = pathlib.Path(__file__).resolve().parent.parent
PROGRAM = ROOT / "crates/exchange_race/out/exchange_race"
SIZES = [2, 4, 6]


def with_all_words(n):
    """What the protocol makes where every word of a descriptor is stored: four words an install, three and three a change for a
    publication, and the status twice; two compare-and-exchanges an install, one to decide, and one a word to clear."""
    return Steps(stores=4 * n + 3 + 3 * n + 2, additions=1, exchanges=2 * n + 1 + n)


def at_least(n):
    """The same where a word that stands already isn't stored: of an install the exchange, but for the first one; of a publication all
    but the old and the new value of each change, as each exchange here is of the same words."""
    return Steps(stores=3 * n + 1 + 2 * n + 2, additions=1, exchanges=2 * n + 1 + n)


def plain_steps(program):
    text = subprocess.run([program, "--steps"], capture_output=True, text=True, check=True).stdout
    return dict(line.split(" words: ") for line in text.splitlines())


def main():
    words = sys.argv[1:]
    exchanges = int(words[0]) if words else 2000
    plain = plain_steps(words[1]) if len(words) > 1 else {}
    kinds = locked_instructions(PROGRAM)
    for n in SIZES:
        steps, instructions = steps_of(PROGRAM, exchanges, str(n), kinds)
        print(f"{n} words: {steps}; {instructions:.0f} instructions")
        print(f"    every word stored: {with_all_words(n)}; at least: {at_least(n)}")
        if plain:
            print(f"    the plain program: {plain[str(n)]}")


if __name__ == "__main__":
    main()
