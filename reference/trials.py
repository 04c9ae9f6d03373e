"""Trials of a test on an array, and campaigns over the faults of a new array."""

from __future__ import annotations

from dataclasses import dataclass
from typing import Callable, Iterator

from arrays import Array, PlaneArray
from cells import NAMED_FAULTS, STORAGE_DEFECTS
from march import Test, missed, schedule
from refusals import ask

MOST_CAMPAIGN_SIDE = 16


def trial(array: Array, test: Test, buffer: bytearray) -> tuple[int, int]:
    """Do a test on an array. The buffer gets a byte for each read and compare, 1 for a miss and 0 otherwise; its later
    bytes are left alone. The answer is the number of operations and that of misses."""
    steps = list(schedule(test, array.words(), array.width()))
    ask(len(buffer) >= sum(step.gives_outcome() for step in steps), 71)
    outcomes: list[bool] = []
    for step in steps:
        miss = missed(array, step)
        if step.gives_outcome():
            outcomes.append(miss)
    buffer[: len(outcomes)] = bytes(outcomes)
    return len(steps), sum(outcomes)


@dataclass(frozen=True)
class Row:
    """What a campaign says of one fault."""

    fault: str
    detected: int
    total: int

    def tenths(self) -> int:
        """Tenths of a percent, rounded down."""
        return self.detected * 1000 // self.total

    def line(self) -> str:
        return f"{self.detected} {self.total} {self.tenths()}"


Plant = Callable[[PlaneArray], None]


def faults(words: int, width: int) -> Iterator[tuple[str, list[Plant]]]:
    """The fifteen faults in their order, each with a planting for each of its places."""
    cells = [(a, j) for a in range(words) for j in range(width)]
    for name, pairs in NAMED_FAULTS.items():
        yield name, [lambda array, a=a, j=j, p=pairs: array.plant_pairs(a, j, p) for a, j in cells]
    for name, storage in STORAGE_DEFECTS.items():
        yield name, [lambda array, a=a, j=j, s=storage: array.plant_storage(a, j, s) for a, j in cells]
    yield "mark", [lambda array, a=a: array.plant_stuck_mark(a) for a in range(words)]


def detects(test: Test, words: int, width: int, plant: Plant) -> bool:
    """Whether a test has a miss on a new array with one fault; the test is left at the first."""
    array = PlaneArray(words, width)
    plant(array)
    return any(missed(array, step) for step in schedule(test, words, width))


def campaign(test: Test, words: int, width: int, records: int | None = None) -> list[Row]:
    """The fifteen rows of a campaign. `records` is the number of records that are lent; None for enough."""
    ask(1 <= words <= MOST_CAMPAIGN_SIDE and 1 <= width <= MOST_CAMPAIGN_SIDE, 81)
    ask(records is None or records >= words, 57)
    rows = []
    for name, places in faults(words, width):
        found = [detects(test, words, width, plant) for plant in places]
        rows.append(Row(name, sum(found), len(found)))
    return rows
