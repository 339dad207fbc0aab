#!/usr/bin/env python3
"""Replays what exchange_race printed under `records`: whether the exchanges of each round, by rising stamps, change what the
earlier ones left, and leave the words that are printed at the round's end.

    exchange_race.py [FILE]            checks a run, of standard input where no file is named
    exchange_race.py --wrong FILE      makes wrong runs of a right one, and shows that each is refused
"""

import random
import sys
from typing import NamedTuple

# The words of the one node, and what they are when a board opens: all are 0 but the key, the greatest number of a word.
WORDS = frozenset(range(8, 16))
VERSION, KEY = 8, 9
GREATEST = 2**62 - 1
FEWEST, MOST = 2, 6
LAST_STAMP = 2**34 - 1


class Wrong(Exception):
    """A run that isn't right, and why."""


class Exchange(NamedTuple):
    stamp: int
    # Of each word its number, its old value and its new one.
    changes: tuple[tuple[int, int, int], ...]


class Round(NamedTuple):
    exchanges: tuple[Exchange, ...]
    cells: dict[int, int]


def exchange_of(numbers):
    if len(numbers) % 3 != 1:
        raise Wrong(f"the exchange at stamp {numbers[0]} has no three numbers for each word")
    return Exchange(numbers[0], tuple(zip(numbers[1::3], numbers[2::3], numbers[3::3])))


def rounds_of(lines):
    """The rounds of a printed run."""
    exchanges, cells, inside = [], {}, False
    for line in lines:
        first, *others = line.split()
        if first == "round" and not inside and not others:
            exchanges, cells, inside = [], {}, True
        elif first == "cell" and inside and len(others) == 2:
            cells[int(others[0])] = int(others[1])
        elif first == "end" and inside and not others:
            yield Round(tuple(exchanges), cells)
            inside = False
        elif inside and first.isdigit() and not cells:
            exchanges.append(exchange_of(tuple(map(int, line.split()))))
        else:
            raise Wrong(f"{line.rstrip()!r} is no line of a run there")
    if inside:
        raise Wrong("the last round has no end")


def check_form(exchange):
    words = {word for word, _, _ in exchange.changes}
    if not FEWEST <= len(exchange.changes) <= MOST or len(words) != len(exchange.changes) or not words <= WORDS:
        raise Wrong(f"the exchange at stamp {exchange.stamp} has the words {sorted(words)}")
    if not 1 <= exchange.stamp < LAST_STAMP:
        raise Wrong(f"{exchange.stamp} is no stamp")
    if not any(word == VERSION and new == old + 2 for word, old, new in exchange.changes):
        raise Wrong(f"the exchange at stamp {exchange.stamp} doesn't raise the version by two")


def check_round(played):
    """Replays a round."""
    cells = {word: 0 for word in WORDS} | {KEY: GREATEST}
    last = 0
    for exchange in sorted(played.exchanges, key=lambda exchange: exchange.stamp):
        check_form(exchange)
        if exchange.stamp == last:
            raise Wrong(f"stamp {last} was given twice")
        last = exchange.stamp
        for word, old, new in exchange.changes:
            if cells[word] != old:
                raise Wrong(f"at stamp {last} word {word} is {cells[word]} and not {old}")
            cells[word] = new
    if played.cells != cells:
        raise Wrong(f"the words are {cells}, and {played.cells} is printed")


def check(lines):
    """Checks a run, and gives how many rounds it has and how many exchanges won."""
    rounds, won = 0, 0
    for played in rounds_of(lines):
        check_round(played)
        rounds += 1
        won += len(played.exchanges)
    return rounds, won


# ---- wrong runs


def with_exchange(played, at, *others):
    """The round with these exchanges in place of that at this index."""
    exchanges = list(played.exchanges)
    exchanges[at : at + 1] = others
    return played._replace(exchanges=tuple(exchanges))


def changed(exchange, change, place):
    """The exchange with another number at this place of one of its changes."""
    changes = [list(numbers) for numbers in exchange.changes]
    changes[change][place] += 2
    return exchange._replace(changes=tuple(map(tuple, changes)))


def wrong_rounds(played, chance):
    """Wrong rounds that are made of a right one by chance, each with what is wrong with it."""
    count = len(played.exchanges)
    at, other = chance.sample(range(count), 2)
    exchange, partner = played.exchanges[at], played.exchanges[other]
    change = chance.randrange(len(exchange.changes))
    word = chance.choice(sorted(WORDS))
    yield "a changed new value", with_exchange(played, at, changed(exchange, change, 2))
    yield "a changed old value", with_exchange(played, at, changed(exchange, change, 1))
    yield "a doubled stamp", with_exchange(played, at, exchange._replace(stamp=partner.stamp))
    yield "a lost exchange", with_exchange(played, at)
    yield "an exchange that is there twice", with_exchange(played, at, exchange, exchange)
    yield "an exchange of two stamps", with_exchange(played, at, exchange, exchange._replace(stamp=LAST_STAMP - 1))
    swapped = with_exchange(played, at, exchange._replace(stamp=partner.stamp))
    yield "two swapped stamps", with_exchange(swapped, other, partner._replace(stamp=exchange.stamp))
    yield "a lost word", with_exchange(played, at, exchange._replace(changes=exchange.changes[:-1]))
    yield "a wrong word at the end", played._replace(cells=played.cells | {word: played.cells[word] + 1})
    yield "a missing word at the end", played._replace(cells={at: number for at, number in played.cells.items() if at != word})


def refuse_wrong(lines, tries):
    """Shows that wrong runs are refused. The run itself is right."""
    chance = random.Random(7)
    refused = 0
    for played in rounds_of(lines):
        check_round(played)
        for _ in range(tries if len(played.exchanges) > 1 else 0):
            for name, wrong in wrong_rounds(played, chance):
                try:
                    check_round(wrong)
                except Wrong:
                    refused += 1
                    continue
                sys.exit(f"FAILED: {name} isn't refused")
    if not refused:
        sys.exit("FAILED: there is no round of which a wrong one can be made")
    print(f"{refused} wrong rounds are refused")


def main():
    words = sys.argv[1:]
    wrong = words[:1] == ["--wrong"]
    files = words[1:] if wrong else words
    with open(files[0]) if files else sys.stdin as lines:
        try:
            if wrong:
                refuse_wrong(lines, 20)
            else:
                rounds, won = check(lines)
                print(f"{rounds} rounds, {won} exchanges won: the replay holds")
        except Wrong as why:
            sys.exit(f"FAILED: {why}")


if __name__ == "__main__":
    main()
