"""The scripts that the programs are timed on, each made by seed, so that every run has the same ones.

A `Case` is one script, timed whole. A `Visits` is two scripts, which differ only in how far down a line of
nodes their commands go: the difference of their times, by the difference of the nodes visited, is the time
of one visit. A `Clients` is a script of some clients, each with as many commands as in the others.
"""
import itertools
import random
from dataclasses import dataclass

# The scripts of one client have as many commands as a script may have, but for those of visits.
COMMANDS = 60_000
# The nodes of the line that visits are timed on, and the commands that go down it.
LINE = 2_000
DESCENTS = 20_000
# The commands of each client of a `Clients`, the words of which those of each kind are drawn, and from how many
# keys they draw.
EACH = 15_000
KINDS = {
    "reads": ["put"] * 3 + ["remove"] + ["get"] * 16,
    "mixed": ["put", "put", "get", "remove", "ceil", "floor"],
    "updates": ["put"] * 3 + ["remove"] * 2,
}
KEYS = {"few": 64, "many": 100_000}


@dataclass
class Case:
    name: str
    lines: list[str]
    # One of so many rounds is run.
    every: int = 1
    # The kind of tree, as the program's word has it.
    tree: str = "bst"


@dataclass
class Visits:
    name: str
    near: list[str]
    far: list[str]
    # How many nodes the commands of `far` visit that those of `near` don't.
    visits: int


@dataclass
class Clients:
    kind: str
    keys: str
    clients: int
    tree: str

    @property
    def name(self):
        return f"{'avl ' if self.tree == 'avl' else ''}clients {self.kind} {self.keys} {self.clients}"

    def lines(self):
        """The commands of one client after those of another, with a line before that names it."""
        dice = random.Random(7)
        for client in range(1, self.clients + 1):
            yield f"client {client}"
            for _ in range(EACH):
                word, key = dice.choice(KINDS[self.kind]), dice.randrange(KEYS[self.keys])
                yield f"{word} {key} {dice.randrange(10**9)}" if word == "put" else f"{word} {key}"


def put_get():
    """Puts and gets by turns of chance, with keys below a million."""
    dice = random.Random(1)
    for _ in range(COMMANDS):
        key = dice.randrange(1_000_000)
        yield f"put {key} {dice.randrange(10**9)}" if dice.random() < 0.5 else f"get {key}"


def fill_drain():
    """Half of the commands put a key each, and the others remove all keys in another order."""
    dice = random.Random(3)
    keys = dice.sample(range(1_000_000), COMMANDS // 2)
    yield from [f"put {key} {dice.randrange(10**9)}" for key in keys]
    dice.shuffle(keys)
    yield from [f"remove {key}" for key in keys]


def put_remove():
    """Puts and removes by turns of chance, with so few keys that most removes find theirs."""
    dice = random.Random(4)
    for _ in range(COMMANDS):
        key = dice.randrange(20_000)
        yield f"put {key} {dice.randrange(10**9)}" if dice.random() < 0.6 else f"remove {key}"


def all_five():
    """All five commands by turns of chance."""
    dice = random.Random(5)
    for _ in range(COMMANDS):
        key = dice.randrange(100_000)
        word = dice.choice(["put", "put", "get", "remove", "ceil", "floor"])
        yield f"{word} {key} {dice.randrange(10**9)}" if word == "put" else f"{word} {key}"


def reading():
    """Commands of 32 clients with comments and blank lines, and a last line that is bad."""
    random.seed(2)
    number = lambda: random.randrange(10 ** random.randint(1, 18))
    for line in range(COMMANDS):
        if line % 50 == 0:
            yield f"client {random.randint(1, 32)}"
        if line % 40 == 0:
            yield "# a note between two commands" if line % 80 else ""
        word = random.choice(["put", "put", "get", "get", "remove", "ceil", "floor"])
        yield f"{word} {number()} {number()}" if word == "put" else f"{word} {number()}"
    yield "get +1"


def puts():
    """Puts of keys below a million."""
    dice = random.Random(6)
    return (f"put {dice.randrange(1_000_000)} {dice.randrange(10**9)}" for _ in range(COMMANDS))


def line():
    """Rising keys, which make the plain tree one line of nodes."""
    return (f"put {key} {key}" for key in range(COMMANDS))


def visits(word, rising=True):
    """A command with the key at the far end of a line of nodes, beside the same with the key at its root.

    A remove takes its key away the first time, and later ones end at the place where it would be.
    """
    keys = range(LINE) if rising else range(LINE - 1, -1, -1)
    puts = [f"put {key} 1" for key in keys]
    command = lambda key: f"{word} {key} 1" if word == "put" else f"{word} {key}"
    left = LINE - 1 if word == "remove" else LINE
    # Near, a command visits the sentinel and the root; far, the sentinel and all nodes that are left.
    return Visits(
        name=f"{word} {'rising' if rising else 'falling'}",
        near=puts + [command(keys[0])] * DESCENTS,
        far=puts + [command(keys[-1])] * DESCENTS,
        visits=(left - 1) * DESCENTS,
    )


def cases_of_clients():
    for tree, kind, keys, clients in itertools.product(["bst", "avl"], KINDS, KEYS, [1, 2, 4]):
        yield Clients(kind, keys, clients, tree)


def all_cases():
    yield Case("put_get", list(put_get()))
    yield Case("fill_drain", list(fill_drain()))
    yield Case("put_remove", list(put_remove()))
    yield Case("all_five", list(all_five()))
    yield Case("reading", list(reading()))
    yield Case("line", list(line()), every=10)
    yield Case("avl put_get", list(put_get()), tree="avl")
    yield Case("avl puts", list(puts()), tree="avl")
    yield Case("avl line", list(line()), tree="avl")
    yield Case("avl fill_drain", list(fill_drain()), tree="avl")
    yield Case("avl put_remove", list(put_remove()), tree="avl")
    for word in ["get", "put", "remove", "ceil", "floor"]:
        yield visits(word)
    for word in ["ceil", "floor"]:
        yield visits(word, rising=False)
    yield from cases_of_clients()
