"""Tests, their schedules, MLT-1 and runs."""

from __future__ import annotations

from dataclasses import dataclass, field
from typing import Iterator

from arrays import Array, all_but_column, equal_bits
from refusals import ask

MOST_ELEMENTS = 16
MOST_OPERATIONS = 8
ORDERS = ("up", "down", "columns")


@dataclass(frozen=True)
class Operation:
    """An operation of an element: a letter (w, r, c or e), its bit (none for e), and for a compare whether a hit is
    expected."""

    letter: str
    value: int | None = None
    hit: bool | None = None

    def text(self) -> str:
        """The operation as a sheet has it."""
        if self.letter == "e":
            return "(e)"
        if self.letter == "c":
            return f"(c {self.value} {'hit' if self.hit else 'none'})"
        return f"({self.letter} {self.value})"


EVERY_OPERATION: tuple[Operation, ...] = (
    *(Operation(letter, value) for letter in "wr" for value in (0, 1)),
    *(Operation("c", value, hit) for value in (0, 1) for hit in (True, False)),
    Operation("e"),
)
COMPARES = tuple(operation for operation in EVERY_OPERATION if operation.letter == "c")


@dataclass
class Element:
    """An order of visits, and the operations that are done at each of them."""

    order: str
    operations: list[Operation] = field(default_factory=list)

    def add(self, operation: Operation) -> None:
        ask(len(self.operations) < MOST_OPERATIONS, 32)
        ask(self.order != "columns" or operation.letter == "c", 33)
        self.operations.append(operation)


@dataclass
class Test:
    """A name and a list of elements."""

    name: str
    elements: list[Element] = field(default_factory=list)

    def add_element(self, element: Element) -> None:
        ask(len(self.elements) < MOST_ELEMENTS, 31)
        self.elements.append(element)

    def add_operation(self, operation: Operation) -> None:
        """Add an operation to the last element."""
        ask(len(self.elements) > 0, 62)
        self.elements[-1].add(operation)

    def whole(self) -> bool:
        """Whether there is an element, and an operation in each."""
        return len(self.elements) > 0 and all(element.operations for element in self.elements)


@dataclass(frozen=True)
class Step:
    """One operation on an array, and what is expected of its answer (None where nothing is)."""

    letter: str
    word: int
    pattern: int
    mask: int
    expected: int | bool | None

    def gives_outcome(self) -> bool:
        return self.letter in "rc"


def step_at(operation: Operation, order: str, place: int, width: int) -> Step:
    """The step of an operation at a visited word, or in a columns element at a visited column."""
    pattern = 0 if operation.value is None else equal_bits(operation.value, width)
    if order == "columns":
        return Step("c", 0, pattern, all_but_column(place, width), operation.hit)
    expected = {"r": pattern, "c": operation.hit}.get(operation.letter)
    return Step(operation.letter, place, pattern, 0, expected)


def visits(order: str, words: int, width: int) -> range:
    """The words, or columns, that an element visits, in their order."""
    if order == "up":
        return range(words)
    if order == "down":
        return range(words - 1, -1, -1)
    return range(width)


def schedule(test: Test, words: int, width: int) -> Iterator[Step]:
    """The flat list of the steps of a test."""
    for element in test.elements:
        for place in visits(element.order, words, width):
            for operation in element.operations:
                yield step_at(operation, element.order, place, width)


def missed(array: Array, step: Step) -> bool:
    """Do a step on an array, and tell whether its answer is not the expected one."""
    if step.letter == "w":
        array.write(step.word, step.pattern, step.mask)
        return False
    if step.letter == "e":
        array.erase(step.word)
        return False
    if step.letter == "r":
        return array.read(step.word) != step.expected
    return array.compare(step.pattern, step.mask) != step.expected


def _operation(text: str) -> Operation:
    for operation in EVERY_OPERATION:
        if operation.text() == f"({text})":
            return operation
    raise ValueError(text)


def make_test(name: str, *elements: str) -> Test:
    """A test from lines such as `up w 0, c 0 hit, w 1`."""
    test = Test(name)
    for line in elements:
        order, operations = line.split(" ", 1)
        test.add_element(Element(order))
        for operation in operations.split(", "):
            test.add_operation(_operation(operation))
    return test


MLT1 = make_test(
    "mlt1",
    "up w 1",
    "up w 0, c 0 hit, w 1",
    "up r 1, w 0",
    "columns c 1 none",
    "down w 1, c 1 hit, w 0",
    "down r 0, w 1",
    "columns c 0 none",
)


def operations_of_a_run(words: int, width: int) -> int:
    """The steps of MLT-1."""
    return 11 * words + 2 * width


class Run:
    """A run of MLT-1 that can be stopped and taken up again."""

    def __init__(self, words: int, width: int) -> None:
        self._steps = list(schedule(MLT1, words, width))
        assert len(self._steps) == operations_of_a_run(words, width)
        self.place = 0
        self.misses = 0

    def at_end(self) -> bool:
        return self.place == len(self._steps)

    def advance_by(self, array: Array, most: int) -> int:
        """Do the next operations, `most` or all that are left, whichever is fewer, and answer their number."""
        count = min(most, len(self._steps) - self.place)
        for step in self._steps[self.place : self.place + count]:
            self.misses += missed(array, step)
        self.place += count
        return count
