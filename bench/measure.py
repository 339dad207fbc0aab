"""Times the programs on the cases by turns, and prints a table of them, and one of those with threads of clients.

    python3 measure.py PATHMAP BUILD [ROUNDS] [CASE..]     each CASE is a name, or the words with which names begin

In the first table a time is the processor time of a run, the program's and the system's for it, so that what else
runs on the machine counts little, and all runs are held to one processor. Under the balanced tree a line says how
many repairs there were. In the second table all processors may be used, and the time by the clock stands above
the processor time; what each program prints there is checked once, as a history of the script.

The spread is the distance of the quartiles, in hundredths of the median. A ratio is the median of the rounds'
ratios, since what disturbs a round disturbs all programs in it.
"""
import os
import statistics
import subprocess
import sys
import time
from dataclasses import dataclass

from cases import Clients, Visits, all_cases

sys.path.append(os.path.join(os.path.dirname(os.path.abspath(__file__)), "..", "tests"))
from history_checker import Wrong, check


@dataclass
class Took:
    """The seconds of a run, by the clock and of processor time."""

    clock: float
    processor: float


def run(words, script, printed):
    """Runs a program on a script, and gives its status and what it took."""
    with open(script, "rb") as given, open(printed, "wb") as out:
        begin = time.perf_counter()
        child = subprocess.Popen(words, stdin=given, stdout=out)
        _, status, usage = os.wait4(child.pid, 0)
        clock = time.perf_counter() - begin
        child.returncode = os.waitstatus_to_exitcode(status)
    return child.returncode, Took(clock, usage.ru_utime + usage.ru_stime)


def written(build, name, lines):
    path = os.path.join(build, name.replace(" ", "_") + ".script")
    with open(path, "w") as script:
        script.writelines(line + "\n" for line in lines)
    return path


def by_turns(programs, rounds):
    """The programs of each round. Each begins with the next one, so that none always follows the same."""
    order = list(programs)
    for turn in range(rounds):
        yield from order[turn % len(order):] + order[:turn % len(order)]


def rounds_of(programs, scripts, build, rounds):
    """The times of each program on each script, by rounds, where all end alike on each script."""
    times = {name: [] for name in programs}
    ends = {}
    for name in by_turns(programs, rounds):
        took = []
        for script in scripts:
            printed = os.path.join(build, name + ".out")
            status, seconds = run(programs[name], script, printed)
            with open(printed, "rb") as out:
                end = (status, out.read())
            if ends.setdefault(script, end) != end:
                sys.exit(f"{name} on {script} differs from the program before: {printed}")
            took.append(seconds.processor)
        times[name].append(took)
    return times


def repairs_of(case, programs, build):
    """How often the balanced tree was repaired, how often by a change, and how many commands made it so.

    The program and the direct one print the same shape then, so they made the same repairs.
    """
    script = written(build, case.name, case.lines)
    with open(script, "rb") as given:
        text = given.read()
    pathmap = subprocess.run(programs["pathmap"] + ["--shape"], input=text, capture_output=True, check=True)
    direct = subprocess.run(programs["direct"] + ["--shape", "--repairs"], input=text, capture_output=True, check=True)
    if pathmap.stdout != direct.stdout:
        sys.exit(f"the shapes differ on {script}")
    repairs, changes = map(int, direct.stderr.split())
    commands = sum(not line.startswith("get") for line in case.lines)
    return f"{repairs / commands:.2f} repairs a put or remove, {changes / commands:.2f} of them with a change"


def measured(case, programs, build, rounds):
    """The unit, and the numbers of each program: milliseconds of a run, or nanoseconds of a visit."""
    if isinstance(case, Visits):
        scripts = [written(build, case.name + " near", case.near), written(build, case.name + " far", case.far)]
        trees = {name: path for name, path in programs.items() if name != "BTreeMap"}
        times = rounds_of(trees, scripts, build, rounds)
        return "ns", {name: [(far - near) / case.visits * 1e9 for near, far in took] for name, took in times.items()}
    script = written(build, case.name, case.lines)
    times = rounds_of(programs, [script], build, -(-rounds // case.every))
    return "ms", {name: [seconds * 1e3 for [seconds] in took] for name, took in times.items()}


def spread(numbers):
    if len(numbers) < 2:
        return 0.0
    first, _, third = statistics.quantiles(numbers, n=4, method="inclusive")
    return (third - first) / statistics.median(numbers) * 100


def ratio(numbers, name, other):
    if other not in numbers:
        return "-"
    return f"{statistics.median(took / base for took, base in zip(numbers[name], numbers[other])):.2f}"


def print_rows(case, unit, numbers):
    for name, took in numbers.items():
        print(
            f"{case.name:14} {name:9} {statistics.median(took):10.2f} {unit} {min(took):10.2f} {unit}"
            f" {spread(took):6.1f} % {ratio(numbers, name, 'BTreeMap'):>9} {ratio(numbers, name, 'direct'):>7}",
            flush=True,
        )


def fault_of(words, script, printed, tree):
    """What is wrong with a program's run, if anything."""
    status, _ = run(words, script, printed)
    with open(script, "rb") as given, open(printed, "rb") as out:
        text, run_text = given.read(), out.read()
    if status != 0:
        return f"status {status}, {run_text[:40]!r}"
    try:
        check(text, run_text, tree)
    except Wrong as wrong:
        return str(wrong)
    return None


def rounds_of_clients(programs, script, build, rounds):
    """What each program took, by rounds. How the clients' commands interleave is another each time."""
    times = {name: [] for name in programs}
    for name in by_turns(programs, rounds):
        status, took = run(programs[name], script, os.path.join(build, "clients.out"))
        if status != 0:
            sys.exit(f"{name} on {script} ended with status {status}")
        times[name].append(took)
    return times


def print_clients(case, times):
    """A row for each clock, with the medians, their spreads and the ratio."""
    for clock in ["clock", "processor"]:
        numbers = {name: [getattr(took, clock) * 1e3 for took in rounds] for name, rounds in times.items()}
        row = [f"{statistics.median(took):10.2f} ms {spread(took):6.1f} %" for took in numbers.values()]
        print(f"{case.name:26} {clock:9}", *row, f"{ratio(numbers, *numbers):>6}", flush=True)


def time_clients(cases, pathmap, build, rounds):
    """The second table; says whether all runs that were checked are right."""
    print(f"{'case':26} {'':9} {'pathmap':>13} {'spread':>8} {'plain Rust':>13} {'spread':>8} {'ratio':>6}")
    are_right = True
    for case in cases:
        script = written(build, case.name, case.lines())
        programs = {"pathmap": [pathmap, "--tree", case.tree], "plain Rust": [os.path.join(build, "locked_map")]}
        printed = os.path.join(build, "clients.out")
        faults = {name: fault_of(words, script, printed, case.tree) for name, words in programs.items()}
        if any(faults.values()):
            are_right = False
            print(f"{case.name:26}", *(f"{name}: {fault}" for name, fault in faults.items() if fault), flush=True)
        else:
            print_clients(case, rounds_of_clients(programs, script, build, rounds))
    return are_right


def time_alone(cases, pathmap, build, rounds):
    """The first table."""
    processors = os.sched_getaffinity(0)
    os.sched_setaffinity(0, {max(processors)})
    std = [os.path.join(build, "btree_map")]
    programs = {
        "bst": {"pathmap": [pathmap], "direct": [os.path.join(build, "direct_tree")], "BTreeMap": std},
        "avl": {
            "pathmap": [pathmap, "--tree", "avl"],
            "direct": [os.path.join(build, "relaxed_avl")],
            "BTreeMap": std,
        },
    }
    print(f"{'case':14} {'program':9} {'median':>13} {'least':>13} {'spread':>8} /BTreeMap /direct")
    for case in cases:
        tree = getattr(case, "tree", "bst")
        unit, numbers = measured(case, programs[tree], build, rounds)
        print_rows(case, unit, numbers)
        if tree == "avl":
            print(f"{case.name:14} {repairs_of(case, programs[tree], build)}", flush=True)
    os.sched_setaffinity(0, processors)


def is_wanted(name, wanted):
    return not wanted or any(f"{name} ".startswith(f"{words} ") for words in wanted)


def main():
    pathmap, build, *rest = sys.argv[1:]
    rounds = int(rest[0]) if rest else 21
    cases = [case for case in all_cases() if is_wanted(case.name, rest[1:])]
    alone = [case for case in cases if not isinstance(case, Clients)]
    if alone:
        time_alone(alone, pathmap, build, rounds)
    of_clients = [case for case in cases if isinstance(case, Clients)]
    if of_clients and not time_clients(of_clients, pathmap, build, rounds):
        sys.exit(1)


if __name__ == "__main__":
    main()
