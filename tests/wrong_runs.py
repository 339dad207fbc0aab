"""Right runs by a simple simulation, and wrong ones that are made of a right one, for tests/histories.py."""

from collections import Counter
from dataclasses import dataclass

from history_checker import read_script

SCRIPT = b"""put 20 1
put 10 2
client 2
put 30 3
get 20
client 3
put 25 5
ceil 15
client 1
get 10
get 20
client 3
remove 25
put 40 4
client 2
put 20 9
floor 39
"""
# The clients of the places of the run that is altered, and the lines at which its parts begin.
ORDER = [1, 2, 1, 3, 2, 3, 1, 1, 3, 2, 3, 2]
LEFT, SHAPE, END = 13, 18, 23


def reply(pairs, command):
    """The reply, looked for in all pairs, and what the command does to them."""
    key = command.numbers[0]
    held = pairs.get(key)
    match command.word:
        case "put":
            pairs[key] = command.numbers[1]
            return "new" if held is None else f"was {held}"
        case "remove":
            pairs.pop(key, None)
        case "ceil":
            return pair(pairs, min((other for other in pairs if other >= key), default=None))
        case "floor":
            return pair(pairs, max((other for other in pairs if other <= key), default=None))
    return "none" if held is None else str(held)


def pair(pairs, key):
    return "none" if key is None else f"{key} {pairs[key]}"


def random_order(clients, dice):
    order = [client for client, commands in enumerate(clients, 1) for _ in commands]
    dice.shuffle(order)
    return order


def shape(keys, first, depth=1):
    """The lines and the height of a search tree of rising keys, of which `first` names the root's place."""
    if not keys:
        return [], 0
    root = first(len(keys))
    left, left_height = shape(keys[:root], first, depth + 1)
    right, right_height = shape(keys[root + 1:], first, depth + 1)
    height = 1 + max(left_height, right_height)
    return [f"{depth} {keys[root]} {height} {left_height - right_height}", *left, *right], height


def simulated(script, order, first=None):
    """The lines of the run in which the clients come in this order; with a shape where its roots are named."""
    clients = read_script(script)
    done, pairs, lines = [0] * len(clients), {}, []
    for place, client in enumerate(order, 1):
        command = clients[client - 1][done[client - 1]]
        done[client - 1] += 1
        lines.append(f"{place} {client}.{done[client - 1]} {command} = {reply(pairs, command)}")
    lines += [f"left {len(pairs)}", *(f"{key} {pairs[key]}" for key in sorted(pairs))]
    if first:
        nodes, height = shape(sorted(pairs), first)
        lines += [f"shape {height}", *nodes]
    return [*lines, "end"]


def printed(lines):
    return "".join(line + "\n" for line in lines).encode()


@dataclass
class WrongRun:
    name: str
    printed: bytes
    # The first line that is wrong in it.
    line: int
    tree: str = "avl"
    shape: bool = True


def middle(keys):
    return keys // 2


def with_line(lines, line, text):
    return [*lines[:line - 1], text, *lines[line:]]


def with_words(lines, line, old, new):
    assert old in lines[line - 1], (lines[line - 1], old)
    return with_line(lines, line, lines[line - 1].replace(old, new, 1))


def moved(lines, line, to):
    rest = without(lines, line)
    return [*rest[:to - 1], lines[line - 1], *rest[to - 1:]]


def without(lines, line):
    return [*lines[:line - 1], *lines[line:]]


def twice(lines, line):
    return [*lines[:line], *lines[line - 1:]]


def swapped(lines, line, other):
    return with_line(with_line(lines, line, lines[other - 1]), other, lines[line - 1])


def counted(lines):
    """The lines with the places and the clients' numbers that they have to have where they stand."""
    done, result = Counter(), []
    for place, line in enumerate(lines, 1):
        if " = " in line:
            _, name, text = line.split(" ", 2)
            client = name.split(".")[0]
            done[client] += 1
            line = f"{place} {client}.{done[client]} {text}"
        result.append(line)
    return result


def altered_commands(run):
    yield "another reply", with_words(run, 5, "= 1", "= 9"), 5
    yield "a reply of another kind", with_words(run, 10, "was 1", "new"), 10
    yield "none for a pair that is there", with_words(run, 6, "20 1", "none"), 6
    yield "another command", with_words(run, 7, "get", "remove"), 7
    yield "a zero in front of a number", with_words(run, 7, "get 10", "get 010"), 7
    yield "a command left out", counted(without(run, 7)), 7
    yield "the last command left out", without(run, 12), 12
    yield "a command that stands there twice", counted(twice(run, 7)), 8
    yield "the last command once more", twice(run, 12), 13
    yield "two commands of one client swapped", counted(swapped(run, 7, 8)), 7
    yield "a get behind the put that it didn't see", counted(moved(run, 8, 10)), 10
    yield "another client's number", with_words(run, 2, "2.1", "3.1"), 2
    yield "a client that isn't there", with_words(run, 2, "2.1", "4.1"), 2
    yield "a client's count that is wrong", with_words(run, 3, "1.2", "1.3"), 3
    yield "a place miscounted", with_words(run, 9, "9 ", "10 "), 9
    yield "a place from zero", with_words(run, 1, "1 ", "0 "), 1


def altered_pairs(run):
    yield "a pair too many", with_words([*run[:17], "50 5", *run[17:]], LEFT, "4", "5"), LEFT
    yield "a pair missing", with_words(without(run, 16), LEFT, "4", "3"), LEFT
    yield "more pairs than are counted", [*run[:17], "50 5", *run[17:]], SHAPE
    yield "pairs that don't rise", swapped(run, 15, 16), 15
    yield "another value left", with_words(run, 15, "20 9", "20 1"), 15


def altered_shapes(run):
    yield "a balance turned round", with_words(run, 19, "3 1", "3 -1"), 19
    yield "a zero with a sign", with_words(run, 22, "1 0", "1 -0"), 22
    yield "a height that is wrong", with_words(run, 20, "20 2", "20 3"), 20
    yield "the root's height wrong", with_words(run, SHAPE, "3", "2"), SHAPE
    yield "a depth that is wrong", with_words(run, 22, "2 40", "3 40"), 22
    yield "a depth past the next", with_words(run, 20, "2 20", "3 20"), 20
    yield "a second root", with_words(run, 22, "2 40", "1 40"), 22
    yield "a right side before the left one", moved(run, 22, 20), 21
    yield "a node below its left side", swapped(run, 20, 21), 20
    yield "a key on the wrong side", with_words(run, 21, "3 10", "3 40"), 21
    yield "a key twice", with_words(run, 21, "3 10", "3 20"), 21
    yield "a key that isn't left", with_words(run, 22, "2 40", "2 41"), 22
    yield "a node missing", without(run, 22), 22
    yield "a node too many", twice(run, 22), END


def altered_ends(run):
    yield "no end", without(run, END), END
    yield "two ends", twice(run, END), END + 1
    yield "a blank line behind the end", [*run, ""], END + 1
    yield "nothing", [], 1


def wrong_runs():
    run = simulated(SCRIPT, ORDER, middle)
    for alter in [altered_commands, altered_pairs, altered_shapes, altered_ends]:
        for name, lines, line in alter(run):
            yield WrongRun(name, printed(lines), line)
    yield WrongRun("bytes behind the end", printed(run) + b" ", END + 1)
    yield WrongRun("no line feed at the end", printed(run)[:-1], END)
    yield WrongRun("carriage returns", printed(run).replace(b"\n", b"\r\n"), 1)
    yield WrongRun("a shape that wasn't asked for", printed(run), SHAPE, shape=False)
    yield WrongRun("no shape", printed(simulated(SCRIPT, ORDER)), SHAPE)
    # A line of nodes is a plain tree, and no balanced one.
    yield WrongRun("a tree out of balance", printed(simulated(SCRIPT, ORDER, lambda keys: 0)), SHAPE + 1)
