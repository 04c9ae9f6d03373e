"""Arrays, kept cell by cell: held bits, marks, defects and the tally; the four operations; making and planting."""

from __future__ import annotations

from typing import Iterable, Sequence

from cells import PAIRS, Cell, Pair, Storage, TableCell
from refusals import ask

MOST_WORDS = 256
MOST_BITS = 64
TALLY_CAP = 2_000_000_000_000


def bit(number: int, column: int) -> int:
    """Bit `column` of a number."""
    return number >> column & 1


def equal_bits(value: int, width: int) -> int:
    """The number of `width` equal bits."""
    return (2**width - 1) * value


def all_but_column(column: int, width: int) -> int:
    """The mask that blocks every column but one."""
    return equal_bits(1, width) - 2**column


def within_limits(words: int, width: int) -> bool:
    return 1 <= words <= MOST_WORDS and 1 <= width <= MOST_BITS


class Array:
    """An array of any make. Nothing here is public but the operations and the three questions; the defects are for
    the reference's own definitions and assertions."""

    def __init__(self, rows: list[list[Cell]], width: int) -> None:
        self._rows = rows
        self._width = width
        self._marks = [False] * len(rows)
        self._stuck = [False] * len(rows)
        self._tally = 0

    # The three questions.

    def words(self) -> int:
        return len(self._rows)

    def width(self) -> int:
        return self._width

    def tally(self) -> int:
        return self._tally

    # The four operations.

    def write(self, word: int, pattern: int, mask: int) -> None:
        self._count()
        if word >= len(self._rows):
            return
        for column, cell in enumerate(self._rows[word]):
            if not bit(mask, column):
                cell.take(bit(pattern, column))
        if not self._stuck[word]:
            self._marks[word] = True

    def read(self, word: int) -> int:
        self._count()
        if word >= len(self._rows):
            return 0
        return sum(cell.held() << column for column, cell in enumerate(self._rows[word]))

    def compare(self, pattern: int, mask: int) -> bool:
        self._count()
        open_columns = [(column, bit(pattern, column)) for column in range(self._width) if not bit(mask, column)]
        return any(
            marked and all(row[column].answer(sought) for column, sought in open_columns)
            for marked, row in zip(self._marks, self._rows)
        )

    def erase(self, word: int) -> None:
        self._count()
        if word < len(self._rows):
            self._marks[word] = False

    def _count(self) -> None:
        self._tally = min(self._tally + 1, TALLY_CAP)

    # The defects, which no question tells.

    def storage(self, word: int, column: int) -> Storage:
        return self._rows[word][column].storage

    def wrong(self, word: int, column: int) -> frozenset[Pair]:
        return self._rows[word][column].wrong

    def mark_stuck(self, word: int) -> bool:
        return self._stuck[word]

    def blemished(self, word: int, column: int) -> bool:
        return (
            self.storage(word, column) is not Storage.GOOD
            or len(self.wrong(word, column)) > 0
            or self.mark_stuck(word)
        )

    def blemished_cells(self) -> int:
        return sum(self.blemished(word, column) for word in range(self.words()) for column in range(self.width()))

    def sound(self) -> bool:
        return self.blemished_cells() == 0

    # Planting.

    def plant_stuck_mark(self, word: int) -> None:
        ask(word < self.words(), 42)
        ask(not self._stuck[word], 43)
        self._stuck[word] = True
        self._marks[word] = False


class PlaneArray(Array):
    """An array that starts without a defect and in which storage defects and wrong pairs can be planted."""

    def __init__(self, words: int, width: int, records: int | None = None) -> None:
        """`records` is the number of records that the caller hands over, one a word or more; None for enough."""
        ask(within_limits(words, width), 41)
        ask(records is None or records >= words, 57)
        super().__init__([[TableCell() for _ in range(width)] for _ in range(words)], width)

    def _inside(self, word: int, column: int) -> bool:
        return word < self.words() and column < self.width()

    def plant_storage(self, word: int, column: int, defect: Storage) -> None:
        assert defect is not Storage.GOOD
        ask(self._inside(word, column), 42)
        old = self._rows[word][column]
        ask(old.storage is Storage.GOOD, 43)
        self._rows[word][column] = TableCell(old.held(), defect, old.wrong)

    def plant_pair(self, word: int, column: int, pair: Pair) -> None:
        assert pair in PAIRS
        ask(self._inside(word, column), 42)
        old = self._rows[word][column]
        ask(pair not in old.wrong, 43)
        self._rows[word][column] = TableCell(old.held(), old.storage, old.wrong | {pair})

    def plant_pairs(self, word: int, column: int, pairs: Iterable[Pair]) -> None:
        for pair in pairs:
            self.plant_pair(word, column, pair)


class CellField(Array):
    """An array over lent cells of any kind: cell (a, j) is the one at a × width + j. The cells are taken as they
    are, and those past the last word are left alone."""

    def __init__(self, cells: Sequence[Cell], words: int, width: int) -> None:
        ask(within_limits(words, width), 41)
        ask(len(cells) >= words * width, 57)
        super().__init__([list(cells[a * width : (a + 1) * width]) for a in range(words)], width)
