"""Says whether a printed run of pathmap is a right history of a script.

`check` goes over the run line by line beside a sorted map of its own. Of a command's line it believes the client
alone, and of a node's line the depth and the key: all else is computed, and the whole line is compared as text.
"""

import re
from bisect import bisect_left, bisect_right, insort
from dataclasses import dataclass, field

# How many numbers follow each first word of a line.
NUMBERS = {"client": 1, "put": 2, "get": 1, "remove": 1, "ceil": 1, "floor": 1}
MOST_CLIENTS = 32
MOST_DIGITS = 18

ENTRY = re.compile(r"[0-9]+ ([0-9]{1,2})\.")
NODE = re.compile(r"([1-9][0-9]{0,5}) (0|[1-9][0-9]{0,17}) ")


class BadScript(Exception):
    """A text that is no script."""


class Wrong(Exception):
    """A printed run that isn't right: its first wrong line, from 1, and what is wrong with it."""

    def __init__(self, line, why):
        super().__init__(f"line {line}: {why}")
        self.line = line


@dataclass(frozen=True, slots=True)
class Command:
    word: str
    numbers: tuple[int, ...]

    def __str__(self):
        return " ".join([self.word, *map(str, self.numbers)])


def number_of(word):
    digits = word.lstrip("0")
    if not re.fullmatch("[0-9]+", word) or len(digits) > MOST_DIGITS:
        raise BadScript(f"{word!r} is no number of a script")
    return int(digits or "0")


def command_of(line):
    """The command or turn of a line of a script, without the line's end, or None where it is skipped."""
    words = [word for word in re.split("[ \t]", line) if word]
    if not words or words[0].startswith("#"):
        return None
    word, *numbers = words
    if NUMBERS.get(word) != len(numbers):
        raise BadScript(f"{line!r} is no line of a script")
    return Command(word, tuple(map(number_of, numbers)))


def read_script(script):
    """The commands of each client, in order."""
    clients = [[]]
    current = clients[0]
    for line in script.decode("latin-1").split("\n"):
        command = command_of(line.removesuffix("\r"))
        if command is None:
            continue
        if command.word != "client":
            current.append(command)
            continue
        [client] = command.numbers
        if not 1 <= client <= MOST_CLIENTS:
            raise BadScript(f"there is no client {client}")
        clients += [[] for _ in range(client - len(clients))]
        current = clients[client - 1]
    return clients


@dataclass
class SortedMap:
    """Its keys in a rising list, and the value of each. Each call gives its reply as it is printed."""

    keys: list[int] = field(default_factory=list)
    values: dict[int, int] = field(default_factory=dict)

    def reply(self, command):
        return getattr(self, command.word)(*command.numbers)

    def put(self, key, value):
        was = self.values.get(key)
        self.values[key] = value
        if was is not None:
            return f"was {was}"
        insort(self.keys, key)
        return "new"

    def get(self, key):
        return str(self.values.get(key, "none"))

    def remove(self, key):
        if key in self.values:
            del self.keys[bisect_left(self.keys, key)]
        return str(self.values.pop(key, "none"))

    def ceil(self, key):
        return self.pair_at(bisect_left(self.keys, key))

    def floor(self, key):
        return self.pair_at(bisect_right(self.keys, key) - 1)

    def pair_at(self, place):
        if not 0 <= place < len(self.keys):
            return "none"
        return f"{self.keys[place]} {self.values[self.keys[place]]}"


class Lines:
    """The lines of a printed run, taken one by one."""

    def __init__(self, printed):
        # What stands behind the last line feed is nothing, or a line without an end.
        *self.lines, self.rest = printed.decode("latin-1").split("\n")
        self.taken = 0

    def take(self):
        self.taken += 1
        if self.taken <= len(self.lines):
            return self.lines[self.taken - 1]
        raise self.wrong(f"{self.rest!r} has no line feed" if self.rest else "the run has no such line")

    def wrong(self, why):
        return Wrong(self.taken, why)

    def expect(self, right):
        self.take()
        self.compare(self.taken, right)

    def compare(self, number, right):
        """Refuses a line that was taken, from 1, where it isn't this one."""
        line = self.lines[number - 1]
        if line != right:
            raise Wrong(number, f"{line!r} stands where {right!r} is right")

    def end(self):
        behind = [*self.lines[self.taken:], self.rest]
        if behind != [""]:
            raise Wrong(self.taken + 1, f"{behind[0]!r} stands behind the end")


def check_history(lines, clients):
    """The clients by places, and the map that is left."""
    order, done, left = [], [0] * len(clients), SortedMap()
    for place in range(1, sum(map(len, clients)) + 1):
        line = lines.take()
        found = ENTRY.match(line)
        if not found:
            raise lines.wrong(f"{line!r} is no command's line, and not all commands have one")
        client = int(found[1])
        if not 1 <= client <= len(clients):
            raise lines.wrong(f"{line!r} names a client that isn't there")
        number = done[client - 1] + 1
        if number > len(clients[client - 1]):
            raise lines.wrong(f"{line!r} is one command more than client {client} has")
        command = clients[client - 1][number - 1]
        lines.compare(place, f"{place} {client}.{number} {command} = {left.reply(command)}")
        done[client - 1] = number
        order.append(client)
    return order, left


def check_pairs(lines, left):
    lines.expect(f"left {len(left.keys)}")
    for key in left.keys:
        lines.expect(f"{key} {left.values[key]}")


@dataclass(slots=True)
class Node:
    """A node of a shape, with the keys between which its own may lie."""

    depth: int
    key: int
    low: int = -1
    high: int = 10**MOST_DIGITS
    left: "Node | None" = None
    right: "Node | None" = None
    height: int = 1

    def hang(self, node):
        """Makes the node a child of this one, and says whether it can be that, now that no other comes before it."""
        node.low, node.high = self.low, self.high
        if node.key < self.key:
            is_free = self.left is None and self.right is None
            self.left, node.high = node, self.key
        else:
            is_free = self.right is None
            self.right, node.low = node, self.key
        return is_free and node.low < node.key < node.high

    def balance(self):
        return height_of(self.left) - height_of(self.right)


def height_of(node):
    return node.height if node else 0


def read_node(lines, keys):
    line = lines.take()
    found = NODE.match(line)
    if not found:
        raise lines.wrong(f"{line!r} is no node's line, and not all keys have one")
    node = Node(int(found[1]), int(found[2]))
    if node.key not in keys:
        raise lines.wrong(f"{line!r} has a key that isn't left")
    return node


def read_nodes(lines, keys):
    """The nodes of a search tree of these keys, each before its left side, and that before its right side."""
    nodes, path = [], []
    for _ in keys:
        node = read_node(lines, keys)
        # The path to the node above it.
        del path[node.depth - 1:]
        if len(path) < node.depth - 1 or (node.depth == 1 and nodes):
            raise lines.wrong(f"a node of depth {node.depth} can't follow")
        if path and not path[-1].hang(node):
            raise lines.wrong(f"the key {node.key} can't follow at depth {node.depth} below the key {path[-1].key}")
        path.append(node)
        nodes.append(node)
    for node in reversed(nodes):
        node.height = 1 + max(height_of(node.left), height_of(node.right))
    return nodes


def check_shape(lines, keys, tree):
    begin = lines.taken + 1
    if not lines.take().startswith("shape "):
        raise lines.wrong(f"{lines.lines[begin - 1]!r} stands where the shape begins")
    # What is right in a line depends on the nodes behind it, so they are all read before it is compared.
    nodes = read_nodes(lines, keys)
    lines.compare(begin, f"shape {nodes[0].height if nodes else 0}")
    for number, node in enumerate(nodes, begin + 1):
        text = f"{node.depth} {node.key} {node.height} {node.balance()}"
        lines.compare(number, text)
        if tree == "avl" and abs(node.balance()) > 1:
            raise Wrong(number, f"{text!r} is out of balance")


def check(script, printed, tree="bst", shape=False):
    """The client of each place of a right run; raises `Wrong` for any other. Both texts are bytes."""
    lines = Lines(printed)
    order, left = check_history(lines, read_script(script))
    check_pairs(lines, left)
    if shape:
        check_shape(lines, left.values.keys(), tree)
    lines.expect("end")
    lines.end()
    return order
