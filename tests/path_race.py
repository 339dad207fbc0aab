#!/usr/bin/env python3
"""Replays what path_race printed under `records`: whether the operations of each round, by rising stamps, read and change what the
earlier ones left, whether the history is that of a map and tells of the same operations, each client's in its order, and whether the
words that are printed at the round's end are those that are left.

    path_race.py [FILE]            checks a run, of standard input where no file is named
    path_race.py --wrong FILE      makes wrong runs of a right one, and shows that each is refused
"""

import random
import sys
from collections import defaultdict
from typing import NamedTuple

from exchange_race import FEWEST, GREATEST, KEY, LAST_STAMP, MOST, VERSION, WORDS, Wrong

VALUE = 10
KINDS = {"read", "path", "words", "stopped"}


class Operation(NamedTuple):
    kind: str
    client: int
    stamp: int
    # Of each word its number, its old value and its new one; a read keeps all of them.
    words: tuple[tuple[int, int, int], ...]


class Entry(NamedTuple):
    client: int
    number: int
    stamp: int
    # The name of the call, the key, and the value that it found; and that which it put.
    call: tuple[str | int, ...]


class Round(NamedTuple):
    operations: tuple[Operation, ...]
    history: tuple[Entry, ...]
    cells: dict[int, int]


def operation_of(kind, others):
    client, stamp, *numbers = map(int, others)
    if len(numbers) % 3 != 0:
        raise Wrong(f"the operation at stamp {stamp} has no three numbers for each word")
    return Operation(kind, client, stamp, tuple(zip(numbers[::3], numbers[1::3], numbers[2::3])))


def entry_of(others):
    client, number, stamp, name, *numbers = others
    if {"get": 2, "put": 3}.get(name) != len(numbers):
        raise Wrong(f"{' '.join(others)} is no entry")
    return Entry(int(client), int(number), int(stamp), (name, *map(int, numbers)))


def round_of(lines):
    """The round of these lines, in which operations come first, then the history, and then the words."""
    operations, history, cells = [], [], {}
    for first, *others in lines:
        if first in KINDS and not history and not cells:
            operations.append(operation_of(first, others))
        elif first == "entry" and not cells:
            history.append(entry_of(others))
        elif first == "cell" and len(others) == 2:
            cells[int(others[0])] = int(others[1])
        else:
            raise Wrong(f"{' '.join([first, *others])} is no line of a run there")
    return Round(tuple(operations), tuple(history), cells)


def rounds_of(lines):
    """The rounds of a printed run."""
    inside = None
    for line in lines:
        words = line.split()
        if words == ["round"] and inside is None:
            inside = []
        elif words == ["end"] and inside is not None:
            yield round_of(inside)
            inside = None
        elif words and inside is not None:
            inside.append(words)
        else:
            raise Wrong(f"{line.rstrip()!r} stands in no round")
    if inside is not None:
        raise Wrong("the last round has no end")


def check_form(operation):
    words = {word for word, _, _ in operation.words}
    if not FEWEST <= len(operation.words) <= MOST or len(words) != len(operation.words) or not {VERSION, VALUE} <= words <= WORDS:
        raise Wrong(f"the operation at stamp {operation.stamp} has the words {sorted(words)}")
    if not 1 <= operation.stamp < LAST_STAMP:
        raise Wrong(f"{operation.stamp} is no stamp")
    rise = 0 if operation.kind == "read" else 2
    for word, old, new in operation.words:
        if word == VERSION and new != old + rise or operation.kind == "read" and new != old:
            raise Wrong(f"the {operation.kind} at stamp {operation.stamp} makes {new} of {old} in word {word}")


def check_words(operations, cells_left):
    """Replays all operations by rising stamps on the words of a board that opens."""
    cells = {word: 0 for word in WORDS} | {KEY: GREATEST}
    last = 0
    for operation in sorted(operations, key=lambda operation: operation.stamp):
        check_form(operation)
        if operation.stamp == last:
            raise Wrong(f"stamp {last} was given twice")
        last = operation.stamp
        for word, old, new in operation.words:
            if cells[word] != old:
                raise Wrong(f"at stamp {last} word {word} is {cells[word]} and not {old}")
            cells[word] = new
    if cells_left != cells:
        raise Wrong(f"the words are {cells}, and {cells_left} is printed")


def check_clients(operations):
    """Each client took its operations down in its order, in which their stamps rise."""
    last = defaultdict(int)
    for operation in operations:
        if operation.stamp <= last[operation.client]:
            raise Wrong(f"client {operation.client} has stamp {operation.stamp} after {last[operation.client]}")
        last[operation.client] = operation.stamp


def call_of(operation):
    """The call that the operation took along."""
    (old, new), = ((old, new) for word, old, new in operation.words if word == VALUE)
    return ("get", 1, old) if operation.kind == "read" else ("put", 1, old, new)


def check_history(operations, history):
    """The history is that of a map whose one key has the value 0 first, and has the call of each operation."""
    value, last, numbers = 0, 0, defaultdict(int)
    for entry in history:
        if entry.stamp <= last:
            raise Wrong(f"the history has stamp {entry.stamp} after {last}")
        last = entry.stamp
        numbers[entry.client] += 1
        if entry.number != numbers[entry.client]:
            raise Wrong(f"client {entry.client} has entry {entry.number} where {numbers[entry.client]} comes next")
        name, _, found, *put = entry.call
        if found != value:
            raise Wrong(f"at stamp {last} the history has the value {value}, and a {name} finds {found}")
        value = put[0] if put else value
    told = {(entry.client, entry.stamp, entry.call) for entry in history}
    made = {(operation.client, operation.stamp, call_of(operation)) for operation in operations}
    if len(history) != len(operations) or told != made:
        raise Wrong(f"the history doesn't tell of the same operations: {sorted(told ^ made)[:2]}")


def check_round(played):
    check_words(played.operations, played.cells)
    check_clients(played.operations)
    check_history(played.operations, played.history)


def check(lines):
    """Checks a run, and gives how many rounds, reads and exchanges it has."""
    rounds, reads, exchanges = 0, 0, 0
    for played in rounds_of(lines):
        check_round(played)
        rounds += 1
        reads += sum(operation.kind == "read" for operation in played.operations)
        exchanges += sum(operation.kind != "read" for operation in played.operations)
    return rounds, reads, exchanges


# ---- wrong runs


def replaced(items, at, *others):
    return items[:at] + others + items[at + 1 :]


def changed(operation, word, place):
    """The operation with another number at this place of one of its words."""
    words = [list(numbers) for numbers in operation.words]
    words[word][place] += 2
    return operation._replace(words=tuple(map(tuple, words)))


def wrong_operations(operations, chance):
    """Wrong lists of operations that are made of a right one by chance, each with what is wrong with it."""
    at, other = chance.sample(range(len(operations)), 2)
    one, partner = operations[at], operations[other]
    word = chance.randrange(len(one.words))
    yield "a changed new value", replaced(operations, at, changed(one, word, 2))
    yield "a changed old value", replaced(operations, at, changed(one, word, 1))
    yield "both changed", replaced(operations, at, changed(changed(one, word, 1), word, 2))
    yield "a doubled stamp", replaced(operations, at, one._replace(stamp=partner.stamp))
    yield "a lost operation", replaced(operations, at)
    yield "an operation that is there twice", replaced(operations, at, one, one)
    yield "a later stamp", replaced(operations, at, one._replace(stamp=LAST_STAMP - 1))
    yield "another client", replaced(operations, at, one._replace(client=one.client + 1))
    yield "no value among the words", replaced(operations, at, one._replace(words=tuple(w for w in one.words if w[0] != VALUE)))
    yield "another kind", replaced(operations, at, one._replace(kind="path" if one.kind == "read" else "read"))


def wrong_histories(history, chance):
    at, other = sorted(chance.sample(range(len(history)), 2))
    one, partner = history[at], history[other]
    yield "a lost entry", replaced(history, at)
    yield "an entry that is there twice", replaced(history, at, one, one)
    yield "swapped entries", replaced(replaced(history, at, partner), other, one)
    yield "another number of an entry", replaced(history, at, one._replace(number=one.number + 1))
    yield "another client's entry", replaced(history, at, one._replace(client=one.client + 1))
    yield "another stamp of an entry", replaced(history, at, one._replace(stamp=LAST_STAMP - 1))
    yield "another value of an entry", replaced(history, at, one._replace(call=one.call[:-1] + (one.call[-1] + 1,)))
    yield "another call", replaced(history, at, one._replace(call=("get", 1, one.call[2] + 1)))


def wrong_rounds(played, chance):
    """Wrong rounds that are made of a right one by chance, each with what is wrong with it."""
    word = chance.choice(sorted(WORDS))
    for name, operations in wrong_operations(played.operations, chance):
        yield name, played._replace(operations=operations)
    for name, history in wrong_histories(played.history, chance):
        yield name, played._replace(history=history)
    yield "a wrong word at the end", played._replace(cells=played.cells | {word: played.cells[word] + 1})
    yield "a missing word at the end", played._replace(cells={at: number for at, number in played.cells.items() if at != word})


def refuse_wrong(lines, tries):
    """Shows that wrong runs are refused. The run itself is right."""
    chance = random.Random(7)
    refused = 0
    for played in rounds_of(lines):
        check_round(played)
        for _ in range(tries if len(played.operations) > 1 else 0):
            for name, wrong in wrong_rounds(played, chance):
                try:
                    check_round(wrong)
                except Wrong:
                    refused += 1
                    continue
                sys.exit(f"FAILED: {name} isn't refused")
    if not refused:
        sys.exit("FAILED: there is no round of which a wrong one can be made")
    print(f"{refused} wrong rounds are refused")


def main():
    words = sys.argv[1:]
    wrong = words[:1] == ["--wrong"]
    files = words[1:] if wrong else words
    with open(files[0]) if files else sys.stdin as lines:
        try:
            if wrong:
                refuse_wrong(lines, 20)
            else:
                rounds, reads, exchanges = check(lines)
                print(f"{rounds} rounds, {reads} reads, {exchanges} exchanges: the replay holds")
        except Wrong as why:
            sys.exit(f"FAILED: {why}")


if __name__ == "__main__":
    main()
