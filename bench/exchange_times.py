#!/usr/bin/env python3
"""Times the race of proved exchanges beside the plain program, by turns, on the same work: exchanges of 2 to 6 words of one node.

    exchange_times.py RACE PLAIN [ROUNDS] [EXCHANGES]     ROUNDS (11) of each, with EXCHANGES (400,000) together, in 1, 2 and 4 threads

A time is that of an exchange, of the whole run by the clock, and of its processors. The spread is the distance of the quartiles, in
hundredths of the median, and the ratio is the median of the rounds' ratios.
"""
import os
import statistics
import sys

from measure import by_turns, ratio, run, spread

THREADS = [1, 2, 4]


def took_of(words):
    """What a run took, where it ended well."""
    status, took = run(words, os.devnull, os.devnull)
    if status != 0:
        sys.exit(f"{' '.join(words)} ended with status {status}")
    return took


def times_of(programs, rounds):
    """What each program took, by rounds."""
    times = {name: [] for name in programs}
    for name in by_turns(programs, rounds):
        times[name].append(took_of(programs[name]))
    return times


def print_rows(threads, exchanges, times):
    for clock in ["clock", "processor"]:
        numbers = {name: [getattr(took, clock) / exchanges * 1e9 for took in rounds] for name, rounds in times.items()}
        row = [f"{statistics.median(took):8.0f} ns {spread(took):6.1f} %" for took in numbers.values()]
        print(f"{threads:7} {clock:9}", *row, f"{ratio(numbers, *numbers):>6}", flush=True)


def main():
    race, plain, *rest = sys.argv[1:]
    rounds, exchanges = (int(word) for word in rest + ["11", "400000"][len(rest):])
    print(f"{'threads':7} {'':9} {'proved':>11} {'spread':>8} {'plain Rust':>11} {'spread':>8} {'ratio':>6}")
    for threads in THREADS:
        programs = {
            "proved": [race, str(threads), str(exchanges), "times"],
            "plain": [plain, "--threads", str(threads), "--exchanges", str(exchanges), "--nodes", "1", "--unchecked"],
        }
        print_rows(threads, exchanges, times_of(programs, rounds))


if __name__ == "__main__":
    main()
