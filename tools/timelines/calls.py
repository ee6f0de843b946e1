"""The calls of a schedule and their answers in words, and the place of each node as the answers tell it.

Two tables, CALLS and REFUSALS, say what a line of the program `schedule` means. Nothing here runs a map: a node's
place follows from the answers by the rules of the calls, and where an answer contradicts them, that is told.
"""

from __future__ import annotations

from dataclasses import dataclass, field
from typing import Callable, NamedTuple

REFUSALS = {
    1: "the tables are not sound, or a part of them has the wrong length",
    2: "no such capacity",
    3: "the key is present",
    4: "the key is absent",
    5: "no node is free",
    6: "the lower bound is above the upper one",
    7: "more than 64 pairs",
    8: "no room for the pairs",
    9: "sixteen ranges are open",
    10: "the last version is used",
    11: "no open range of that version",
    12: "the node is not pending",
    13: "no key there",
}
SET_UP_REFUSALS = {
    1: "schedule has memory for capacity 64, 128 or 256 only",
    2: "the capacity is none of 64, 128, 256, 512, 1024, 2048, 4096",
}
LETTERS = "abcdefghijklmnop"


class Disagreement(Exception):
    """An answer that the calls before it do not allow."""


class Place(NamedTuple):
    """Where a node is: its sign in the text, the word for it, and which open range holds it."""

    sign: str
    word: str
    holder: Range | None = None


FREE = Place(".", "free")
PRESENT = Place("#", "present")
PENDING = Place("~", "pending")
DUE = Place("*", "due")


@dataclass(eq=False)
class Range:
    """A range from its opening to its close; the steps are (call, how many pairs, whether finished)."""

    version: int
    letter: str
    low: int
    high: int
    opened: int
    closed: int | None = None
    steps: list = field(default_factory=list)
    held: list = field(default_factory=list)

    def __str__(self):
        return f"range {self.version} ({self.letter})"


class Tables:
    """What the answers so far tell of nodes and ranges."""

    def __init__(self, capacity):
        self.capacity = capacity
        self.call = 0
        self.places = []  # by node, as many as were ever used
        self.keys = []  # the key that was last put into each node
        self.open = {}  # by version, in the order of opening
        self.ranges = []  # all of them
        self.due = []

    def put(self, nodes, place):
        for node in nodes:
            self.places[node] = place

    def count(self, *words):
        return sum(place.word in words for place in self.places)

    def expect(self, what, answered, followed):
        if answered != followed:
            raise Disagreement(f"call {self.call} answers {answered} for {what}; by the calls before it, that is {followed}")


def some(count, what):
    return f"{count or 'no'} {what}{'' if count == 1 else 's'}"


def told(pairs):
    return (": " if pairs else "") + ", ".join(f"{key} -> {value}" for key, value in pairs)


# ---- what each call's answer says: the tables, the call's operands, the answer's numbers, its pairs


def looked_up(tables, operands, numbers, pairs):
    return f"value {numbers[0]}"


def inserted(tables, operands, numbers, pairs):
    node = numbers[0]
    missing = node + 1 - len(tables.places)
    tables.places += [FREE] * missing
    tables.keys += [None] * missing
    tables.places[node], tables.keys[node] = PRESENT, operands[0]
    return f"node {node}"


def removed(tables, operands, numbers, pairs):
    tables.put(numbers, PENDING)
    return f"node {numbers[0]}, pending"


def handed_over(tables, operands, numbers, pairs):
    return f"{tables.keys[operands[0]]}'s node is {given_back(tables, operands[0], numbers[0])}"


def given_back(tables, node, freed):
    if freed:
        tables.put([node], FREE)
        return "free at once"
    if not tables.open:
        raise Disagreement(f"call {tables.call}: node {node} is held although no range is open")
    latest = list(tables.open.values())[-1]
    latest.held.append(node)
    tables.put([node], Place(latest.letter, "held", latest))
    return f"held by {latest}"


def nearest(tables, operands, numbers, pairs):
    return f"key {numbers[0]}"


def ranged(tables, operands, numbers, pairs):
    return some(numbers[0], "pair") + told(pairs)


def opened(tables, operands, numbers, pairs):
    used = {each.letter for each in tables.open.values()}
    letter = next(letter for letter in LETTERS if letter not in used)
    new = Range(numbers[0], letter, *operands, opened=tables.call)
    tables.open[new.version] = new
    tables.ranges.append(new)
    return f"range {new.version}, letter {letter}"


def stepped(tables, operands, numbers, pairs):
    count, finished = numbers
    tables.open[operands[0]].steps.append((tables.call, count, finished))
    return some(count, "pair") + (", finished" if finished else ", more to come") + told(pairs)


def closed(tables, operands, numbers, pairs):
    old = tables.open.pop(operands[0])
    old.closed = tables.call
    older = [each for each in tables.open.values() if each.version < old.version]
    tables.expect("the nodes made due", numbers[0], 0 if older else len(old.held))
    if older:
        older[-1].held += old.held
        tables.put(old.held, Place(older[-1].letter, "held", older[-1]))
        return "none due" + (f", {some(len(old.held), 'node')} now held by {older[-1]}" if old.held else "")
    tables.due += old.held
    tables.put(old.held, DUE)
    return f"{some(len(old.held), 'node')} due"


def swept(tables, operands, numbers, pairs):
    tables.expect("a node freed", numbers[0], min(1, len(tables.due)))
    if not numbers[0]:
        return "nothing is due"
    node = tables.due.pop(0)
    tables.put([node], FREE)
    tables.expect("the nodes that stay due", numbers[1], len(tables.due))
    return f"{tables.keys[node]}'s node {node} is freed, {numbers[1]} due"


def tallied(tables, operands, numbers, pairs):
    present, held, free = numbers
    tables.expect("the present nodes", present, tables.count("present"))
    tables.expect("the free nodes", free, tables.capacity - tables.count("present", "pending", "held", "due"))
    return f"{present} present, {held} held, {free} free"


class Call(NamedTuple):
    """A call: its name in the text of a schedule, its words, how many numbers its answer has before the pairs, and what the answer says."""

    name: str
    words: str
    numbers: int
    answer: Callable


CALLS = {
    0: Call("lookup", "lookup {}", 1, looked_up),
    1: Call("insert", "insert {} -> {}, coin {}", 1, inserted),
    2: Call("remove", "remove {}", 1, removed),
    3: Call("hand-over", "hand over node {}", 1, handed_over),
    4: Call("ceil", "key at or above {}", 1, nearest),
    5: Call("floor", "key at or below {}", 1, nearest),
    6: Call("succ", "next key above {}", 1, nearest),
    7: Call("pred", "next key below {}", 1, nearest),
    8: Call("fast", "fast range {} to {}", 1, ranged),
    9: Call("open", "open {} to {}", 1, opened),
    10: Call("step", "step range {}, room {}", 2, stepped),
    11: Call("close", "close range {}", 1, closed),
    12: Call("sweep", "sweep", 2, swept),
    13: Call("tally", "tally", 3, tallied),
}


class Row(NamedTuple):
    """A call that was made: its number, its words and its answer's, the refusal or 0, and what holds after it."""

    number: int
    call: str
    answer: str
    refusal: int
    places: tuple
    keys: tuple
    letters: str


def follow(tables, calls, lines):
    """The rows of a schedule: `calls` are the lines of read_schedule, `lines` those of schedule, both without the first."""
    for text, line in zip(calls, lines):
        number, code, refusal, *rest = map(int, line.split())
        name, *operands = text.split()
        call = CALLS.get(code)
        tables.call = number
        if call is None or call.name != name:
            raise Disagreement(f"call {number} is {name} in the file, and code {code} in the listing is {call and call.name}")
        operands = [int(operand) for operand in operands]
        if refusal:
            answer = f"refused ({refusal}): {REFUSALS[refusal]}"
        else:
            numbers, flat = rest[: call.numbers], rest[call.numbers :]
            answer = call.answer(tables, operands, numbers, list(zip(flat[::2], flat[1::2])))
        letters = "".join(each.letter for each in tables.open.values())
        yield Row(number, call.words.format(*operands), answer, refusal, tuple(tables.places), tuple(tables.keys), letters)
