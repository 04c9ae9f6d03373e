"""Single cells: what they hold and what they answer to a comparand bit."""

from __future__ import annotations

from enum import Enum
from itertools import product

Pair = tuple[int, int]
"""A held bit and a comparand bit."""

PAIRS: tuple[Pair, ...] = ((0, 0), (0, 1), (1, 1), (1, 0))
"""The four pairs in the order in which texts and charts name them."""

NAMED_FAULTS: dict[str, frozenset[Pair]] = {
    "SMF": frozenset({(0, 1), (1, 0)}),
    "SMMF": frozenset({(0, 0), (1, 1)}),
    "CM1F": frozenset({(0, 0), (0, 1)}),
    "CM0F": frozenset({(1, 1), (1, 0)}),
    "PM1F": frozenset({(0, 0), (1, 0)}),
    "PM0F": frozenset({(1, 1), (0, 1)}),
    "EMM1F": frozenset({(1, 1)}),
    "EMM0F": frozenset({(0, 0)}),
    "IM1F": frozenset({(1, 0)}),
    "IM0F": frozenset({(0, 1)}),
}
"""The wrong set of each comparison fault that has a name."""


class Storage(Enum):
    """How a cell stores a bit."""

    GOOD = 0
    SA0 = 1
    SA1 = 2
    NORISE = 3
    NOFALL = 4


LOW = (Storage.SA0, Storage.NORISE)
"""Storage that cannot come to 1."""
HIGH = (Storage.SA1, Storage.NOFALL)
"""Storage that cannot come to 0."""

STORAGE_DEFECTS: dict[str, Storage] = {
    "sa0": Storage.SA0,
    "sa1": Storage.SA1,
    "norise": Storage.NORISE,
    "nofall": Storage.NOFALL,
}


def stored(storage: Storage, held: int, bit: int) -> int:
    """What a cell that holds `held` holds after a write of `bit`."""
    if storage is Storage.SA0:
        return 0
    if storage is Storage.SA1:
        return 1
    if storage is Storage.NORISE and held == 0:
        return 0
    if storage is Storage.NOFALL and held == 1:
        return 1
    return bit


def settled(storage: Storage, bit: int) -> int:
    """The bit that a cell means for which `bit` is noted: a stuck cell means its own."""
    if storage is Storage.SA0:
        return 0
    if storage is Storage.SA1:
        return 1
    return bit


class TableCell:
    """A cell that keeps held bit, storage and wrong set as they are."""

    def __init__(self, bit: int = 0, storage: Storage = Storage.GOOD, wrong: frozenset[Pair] = frozenset()) -> None:
        self.bit = settled(storage, bit)
        self.storage = storage
        self.wrong = wrong

    def held(self) -> int:
        return self.bit

    def take(self, bit: int) -> None:
        self.bit = stored(self.storage, self.bit, bit)

    def answer(self, comparand: int) -> bool:
        """Match when the bits are equal, reversed for a pair in the wrong set."""
        return (self.bit == comparand) != ((self.bit, comparand) in self.wrong)


class Transistor(Enum):
    GOOD = 0
    STUCK_OPEN = 1
    STUCK_ON = 2


def conducts(transistor: Transistor, gate: bool) -> bool:
    """Whether a transistor conducts that should conduct exactly when `gate`."""
    if transistor is Transistor.STUCK_OPEN:
        return False
    if transistor is Transistor.STUCK_ON:
        return True
    return gate


class TransistorCell:
    """A cell described by the four transistors of its search path."""

    def __init__(
        self,
        bit: int = 0,
        storage: Storage = Storage.GOOD,
        storage_a: Transistor = Transistor.GOOD,
        search_a: Transistor = Transistor.GOOD,
        storage_b: Transistor = Transistor.GOOD,
        search_b: Transistor = Transistor.GOOD,
    ) -> None:
        assert storage in (Storage.GOOD, Storage.SA0, Storage.SA1)
        self.bit = settled(storage, bit)
        self.storage = storage
        self.storage_a = storage_a
        self.search_a = search_a
        self.storage_b = storage_b
        self.search_b = search_b
        self.wrong = frozenset(pair for pair in PAIRS if self._matches(*pair) != (pair[0] == pair[1]))

    def _matches(self, held: int, comparand: int) -> bool:
        leg_a = conducts(self.storage_a, held == 1) and conducts(self.search_a, comparand == 0)
        leg_b = conducts(self.storage_b, held == 0) and conducts(self.search_b, comparand == 1)
        return not (leg_a or leg_b)

    def held(self) -> int:
        return self.bit

    def take(self, bit: int) -> None:
        self.bit = stored(self.storage, self.bit, bit)

    def answer(self, comparand: int) -> bool:
        return self._matches(self.bit, comparand)


Cell = TableCell | TransistorCell


def every_transistor_cell() -> list[TransistorCell]:
    """The 81 cells that differ in the states of their transistors."""
    return [TransistorCell(0, Storage.GOOD, *states) for states in product(Transistor, repeat=4)]
