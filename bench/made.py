"""Times pathmap_make beside a plain Rust program that writes the same script, and pathmap's run of a made one.

    python3 made.py CRATES BUILD [ROUNDS]

A script of 60,000 commands is written to a file, by the two programs in turns. A time is the processor time of the
program, with the system's for it, less that of a script of one command, which is what it takes to start and to end. A
ratio is the median of the rounds' ratios. The run of a made script is timed by the clock.
"""
import statistics
import sys

from measure import run

# The numbers of the least script and of one with the most commands.
LEAST, MOST = ["7", "1", "1"], ["7", "32", "1875"]
EMPTY = "/dev/null"


def seconds(program, numbers, printed):
    status, took = run([program, *numbers], EMPTY, printed)
    assert status == 0, (program, status)
    return took


def writing(program, build):
    """The processor time of the writing alone."""
    printed = f"{build}/made.script"
    most = seconds(program, MOST, printed).processor
    return most - seconds(program, LEAST, printed).processor


def spread(times):
    low, middle, high = statistics.quantiles(times, n=4)
    return f"{1000 * middle:.2f} ms (±{100 * (high - low) / middle / 2:.0f} %)"


def main():
    crates, build, rounds = sys.argv[1], sys.argv[2], int((sys.argv[3:] or ["101"])[0])
    ours, plain = f"{crates}/pathmap_make/out/pathmap_make", f"{build}/make_script"
    texts = []
    for program in (ours, plain):
        seconds(program, MOST, f"{build}/made.script")
        with open(f"{build}/made.script", "rb") as script:
            texts.append(script.read())
    assert texts[0] == texts[1], "the two programs write different scripts"
    times = {ours: [], plain: []}
    for turn in range(rounds):
        for program in (ours, plain) if turn % 2 else (plain, ours):
            times[program].append(writing(program, build))
    ratio = statistics.median(a / b for a, b in zip(times[ours], times[plain]))
    print(f"60,000 commands written: {spread(times[ours])}, plain {spread(times[plain])}, ratio {ratio:.2f}")
    words = ["--made", "7", "--tree", "avl", "--summary"]
    clock = [seconds(f"{crates}/pathmap/out/pathmap", words, EMPTY).clock for _ in range(rounds)]
    print(f"pathmap {' '.join(words)}: {spread(clock)}")


if __name__ == "__main__":
    main()
