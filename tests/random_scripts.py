"""Scripts of several clients by seed, for tests/histories.py."""

import random
from dataclasses import dataclass

from history_checker import MOST_CLIENTS

GREATEST = 10**18 - 1
WORDS = ["put", "put", "put", "get", "remove", "ceil", "floor"]


@dataclass
class Script:
    name: str
    text: bytes


@dataclass
class Writer:
    """Writes lines as they come in no script of good manners, now and then."""

    dice: random.Random
    is_plain: bool
    lines: list[str]

    def seldom(self):
        return not self.is_plain and self.dice.random() < 0.04

    def blank(self):
        return self.dice.choice(["  ", "\t", " \t "]) if self.seldom() else " "

    def number(self, number):
        return "0" * self.dice.choice([1, 2, 30]) + str(number) if self.seldom() else str(number)

    def write(self, word, *numbers):
        if self.seldom():
            self.lines.append(self.dice.choice(["", " \t", "# a note", "  #put 1 1", "#\x80", "\r"]))
        before = self.blank() if self.seldom() else ""
        line = before + word + "".join(self.blank() + self.number(number) for number in numbers)
        self.lines.append(line + (self.blank() if self.seldom() else "") + ("\r" if self.seldom() else ""))

    def text(self):
        end = "" if self.seldom() else "\n"
        return ("\n".join(self.lines) + end).encode("latin-1")


def command(dice, keys):
    word = dice.choice(WORDS)
    # Beside the keys from 0 up there is the greatest one.
    key = GREATEST if dice.random() < 0.01 else dice.randrange(keys)
    numbers = [key, dice.choice([dice.randrange(100), dice.randrange(GREATEST + 1)])] if word == "put" else [key]
    return word, *numbers


def by_seed(seed, size, most_clients):
    """A script of so many commands, and of several clients where so many may be; some may have no command."""
    dice = random.Random(seed)
    writer = Writer(dice, dice.random() < 0.3, [])
    most = min(dice.choice([2, 3, 4, 8, MOST_CLIENTS]), most_clients)
    clients = dice.sample(range(1, most + 1), dice.randint(min(2, most), most))
    keys = dice.choice([2, 5, 20, 1000, 10**6, 10**15])
    # How often another client's commands follow.
    turns = dice.choice([0.02, 0.2, 1])
    named_at = dice.randrange(size + 1)
    for i in range(size + 1):
        if i == named_at:
            writer.write("client", most)
        if i == named_at or dice.random() < turns:
            writer.write("client", dice.choice(clients))
        if i < size:
            writer.write(*command(dice, keys))
    return Script(f"script {seed}", writer.text())


def all_scripts(most_clients):
    """Fifty of them, from no command to some thousands."""
    dice = random.Random(50)
    sizes = [0, 0, 1, 2, 3, 5, 10, 20] + [dice.randrange(20, 400) for _ in range(39)] + [2000, 3000, 5000]
    return [by_seed(seed, size, most_clients) for seed, size in enumerate(sizes)]


def crowd(seed):
    """The most clients with 500 commands each, on eight keys."""
    dice = random.Random(seed)
    writer = Writer(dice, True, [])
    for client in range(1, MOST_CLIENTS + 1):
        writer.write("client", client)
        for _ in range(500):
            writer.write(*command(dice, 8))
    return Script(f"crowd {seed}", writer.text())
