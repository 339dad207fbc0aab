#!/usr/bin/env python3
"""Checks printed runs of pathmap: whether each is a right history of its script.

    histories.py check SCRIPT OUTPUT [--tree bst|avl] [--shape]   one run, by the words that the program was given
    histories.py [--clients N]     shows that wrong runs are refused, and then checks runs of bin/pathmap on scripts
                                   of at most N clients (32), under both trees
"""

import argparse
import pathlib
import random
import subprocess
import sys
import tempfile
from dataclasses import dataclass
from itertools import pairwise

import random_scripts
import wrong_runs
from history_checker import MOST_CLIENTS, BadScript, Wrong, check, read_script

PROGRAM = pathlib.Path(__file__).resolve().parent.parent / "bin/pathmap"
MAKER = PROGRAM.with_name("pathmap_make")
TREES = ["bst", "avl"]
# The seconds that a run may take.
PATIENCE = 60
# The seed of the runs under --made, and the clients and commands that such runs have.
MADE = ["7", "32", "500"]
# How many scripts there are of the most clients with 500 commands each, on eight keys.
CROWDS = 5


@dataclass
class Count:
    right: int = 0
    wrong: int = 0
    # How often an entry is another client's than the one before it.
    turns: int = 0

    def add(self, name, script, printed, tree, shape):
        """Counts a run by what the checker says of it."""
        try:
            order = check(script, printed, tree, shape)
        except Wrong as wrong:
            self.fail(f"{name}: {wrong}; see {kept(script, printed)}")
        else:
            self.right += 1
            self.turns += sum(client != before for before, client in pairwise(order))

    def fail(self, why):
        self.wrong += 1
        print(f"FAILED: {why}")


def kept(script, printed):
    """The folder in which a wrong run is kept, since it may come out otherwise another time."""
    folder = pathlib.Path(tempfile.mkdtemp(prefix="pathmap-wrong-run."))
    (folder / "script").write_bytes(script)
    (folder / "output").write_bytes(printed)
    return folder


def refused(wrong):
    """What the checker says of a wrong run, and whether it is that of its first wrong line."""
    try:
        check(wrong_runs.SCRIPT, wrong.printed, wrong.tree, wrong.shape)
    except Wrong as found:
        return str(found), found.line == wrong.line
    return "it is taken", False


def check_refusals():
    """The kinds of wrong runs, and how many of them are refused as they should be."""
    kinds, good = 0, 0
    for wrong in wrong_runs.wrong_runs():
        said, is_good = refused(wrong)
        kinds += 1
        good += is_good
        print(f"{'refused' if is_good else 'FAILED'}: {wrong.name}: {said}")
    return kinds, good


def check_simulated():
    """Right runs of one script in many orders, with shapes of either kind."""
    count, dice, script = Count(), random.Random(0), wrong_runs.SCRIPT
    for _ in range(100):
        order = wrong_runs.random_order(read_script(script), dice)
        for tree, first in [("bst", dice.randrange), ("avl", wrong_runs.middle)]:
            for shape in [False, True]:
                lines = wrong_runs.simulated(script, order, first if shape else None)
                count.add(f"simulated {tree}", script, wrong_runs.printed(lines), tree, shape)
    return count


def run(count, script, tree, shape):
    """Runs the program on a script, and counts what it prints."""
    name = f"{script.name}, {tree}"
    words = [PROGRAM, "--tree", tree, *(["--shape"] if shape else [])]
    try:
        ended = subprocess.run(words, input=script.text, capture_output=True, timeout=PATIENCE)
    except subprocess.TimeoutExpired:
        count.fail(f"{name}: no end within {PATIENCE} s")
        return
    if ended.returncode == 0:
        count.add(name, script.text, ended.stdout, tree, shape)
    else:
        count.fail(f"{name}: status {ended.returncode}, {ended.stdout[-80:]!r}")


def check_program(most_clients):
    count = Count()
    for i, script in enumerate(random_scripts.all_scripts(most_clients)):
        for tree in TREES:
            run(count, script, tree, shape=i % 2 == 0)
    return count


def check_crowds(most_clients):
    count = Count()
    for seed in range(CROWDS if most_clients == MOST_CLIENTS else 0):
        script = random_scripts.crowd(seed)
        for tree in TREES:
            run(count, script, tree, shape=seed % 2 == 0)
    return count


def check_made():
    """Runs of a script that the program makes itself, each checked against the script that the other one writes."""
    count = Count()
    script = subprocess.run([MAKER, *MADE], stdout=subprocess.PIPE, check=True).stdout
    for tree in TREES:
        words = [PROGRAM, "--made", MADE[0], "--tree", tree, "--shape"]
        ended = subprocess.run(words, stdin=subprocess.DEVNULL, capture_output=True, timeout=PATIENCE)
        count.add(f"made, {tree}", script, ended.stdout, tree, True)
    return count


def check_all(most_clients):
    kinds, refusals = check_refusals()
    simulated = check_simulated()
    # The program is built here, where need be, in the time that this takes.
    subprocess.run([PROGRAM], input=b"", stdout=subprocess.DEVNULL, check=True)
    runs, crowds, made = check_program(most_clients), check_crowds(most_clients), check_made()
    print(f"made: {made.right} right, {made.wrong} wrong")
    print(f"crowds: {crowds.right} right, {crowds.wrong} wrong, with {crowds.turns} changes of the client")
    print(
        f"histories: {runs.right} right, {runs.wrong} wrong; {refusals} of {kinds} kinds of wrong outputs refused,"
        f" {simulated.right} of {simulated.right + simulated.wrong} right ones taken"
    )
    return refusals == kinds and not (simulated.wrong or runs.wrong or crowds.wrong or made.wrong)


def check_files(script, output, tree, shape):
    try:
        check(script.read_bytes(), output.read_bytes(), tree, shape)
    except (BadScript, Wrong) as fault:
        print(fault)
        return False
    print("right")
    return True


def main():
    words = argparse.ArgumentParser(description=__doc__, formatter_class=argparse.RawDescriptionHelpFormatter)
    words.add_argument("--clients", metavar="N", type=int, choices=range(1, MOST_CLIENTS + 1), default=MOST_CLIENTS)
    one = words.add_subparsers(dest="mode").add_parser("check")
    one.add_argument("script", type=pathlib.Path)
    one.add_argument("output", type=pathlib.Path)
    one.add_argument("--tree", choices=TREES, default="bst")
    one.add_argument("--shape", action="store_true")
    given = words.parse_args()
    if given.mode:
        is_good = check_files(given.script, given.output, given.tree, given.shape)
    else:
        is_good = check_all(given.clients)
    return 0 if is_good else 1


if __name__ == "__main__":
    sys.exit(main())
