#!/usr/bin/env python3
"""Times the race of proved operations along a path beside the plain program, by turns, on the same work: validated reads, exchanges by
their paths, and as many of each, of 2 to 6 words of one node.

    path_times.py RACE PLAIN [ROUNDS] [OPERATIONS]     ROUNDS (11) of each, with OPERATIONS (1,000,000) together, in 1, 2 and 4 threads

The table is that of exchange_times.py.
"""
import sys

from exchange_times import THREADS, print_rows, times_of


def main():
    race, plain, *rest = sys.argv[1:]
    rounds, operations = (int(word) for word in rest + ["11", "1000000"][len(rest):])
    for mix in ["reads", "changes", "both"]:
        print(f"{mix:<17} {'proved':>11} {'spread':>8} {'plain Rust':>11} {'spread':>8} {'ratio':>6}")
        for threads in THREADS:
            words = [str(threads), str(operations), "times", mix]
            print_rows(threads, operations, times_of({"proved": [race, *words], "plain": [plain, *words]}, rounds))


if __name__ == "__main__":
    main()
