"""The bench: operations by hand, runs with tickets, charts, the finding and the books."""

from __future__ import annotations

from dataclasses import dataclass
from enum import Enum

from arrays import Array
from charts import draw, operations_of_a_chart
from march import Run, operations_of_a_run
from refusals import Refusal, ask

LIMIT = 1_000_000_000_000


class FindingKind(Enum):
    OPEN = 0
    SOUND = 1
    FAULTY = 2
    CHARTED = 3


@dataclass(frozen=True)
class Finding:
    """What is known of the array; the count is that of misses or of blemished cells, else 0."""

    kind: FindingKind
    count: int = 0

    def line(self) -> str:
        return f"finding {self.kind.value} {self.count}"


class Bench:
    """A bench over one array. A ticket is its number. Each call asks its questions in their order and then cannot
    fail; the three rules are asserted after every granted call."""

    def __init__(self, array: Array) -> None:
        self._array = array
        self._first_tally = array.tally()
        self.hand = 0
        self.starts = 0
        self.closes = 0
        self.charts = 0
        self.quits = 0
        self.run: Run | None = None
        self._finding = Finding(FindingKind.OPEN)

    # Questions.

    def _ask_no_run(self) -> None:
        ask(self.run is None, 51)

    def _ask_word(self, word: int) -> None:
        ask(word < self._array.words(), 52)

    def _ask_pattern(self, pattern: int, mask: int) -> None:
        ask(max(pattern, mask) < 2 ** self._array.width(), 53)

    def _ask_room(self, operations: int) -> None:
        ask(self._array.tally() + operations <= LIMIT, 54)

    def _fitting_run(self, ticket: int) -> Run:
        if self.run is None or ticket != self.starts:
            raise Refusal(55)
        return self.run

    def _run_operations(self) -> int:
        return operations_of_a_run(self._array.words(), self._array.width())

    def _chart_operations(self) -> int:
        return operations_of_a_chart(self._array.words(), self._array.width())

    # Operations by hand.

    def write(self, word: int, pattern: int, mask: int) -> None:
        self._ask_no_run()
        self._ask_word(word)
        self._ask_pattern(pattern, mask)
        self._ask_room(1)
        self._array.write(word, pattern, mask)
        self._by_hand()

    def read(self, word: int) -> int:
        self._ask_no_run()
        self._ask_word(word)
        self._ask_room(1)
        answer = self._array.read(word)
        self._by_hand()
        return answer

    def compare(self, pattern: int, mask: int) -> bool:
        self._ask_no_run()
        self._ask_pattern(pattern, mask)
        self._ask_room(1)
        answer = self._array.compare(pattern, mask)
        self._by_hand()
        return answer

    def erase(self, word: int) -> None:
        self._ask_no_run()
        self._ask_word(word)
        self._ask_room(1)
        self._array.erase(word)
        self._by_hand()

    def _by_hand(self) -> None:
        self.hand += 1
        self._assert_rules()

    # Runs.

    def start(self) -> int:
        """Open a run, and answer the number of its ticket."""
        self._ask_no_run()
        ask(self._array.tally() + self._run_operations() <= LIMIT and self.starts + 1 <= LIMIT, 54)
        self.starts += 1
        self.run = Run(self._array.words(), self._array.width())
        self._assert_rules()
        return self.starts

    def step(self, ticket: int, most: int) -> int:
        count = self._fitting_run(ticket).advance_by(self._array, most)
        self._assert_rules()
        return count

    def close(self, ticket: int) -> Finding:
        run = self._fitting_run(ticket)
        ask(run.at_end(), 56)
        self._finding = Finding(FindingKind.FAULTY, run.misses) if run.misses else Finding(FindingKind.SOUND)
        self.closes += 1
        self.run = None
        self._assert_rules()
        return self._finding

    def quit(self, ticket: int) -> None:
        self.quits += self._fitting_run(ticket).place
        self.run = None
        self._assert_rules()

    def run_whole(self) -> Finding:
        ticket = self.start()
        self.step(ticket, self._run_operations())
        return self.close(ticket)

    # Charts, finding, books.

    def chart(self, buffer: bytearray) -> Finding:
        """Draw the chart into a buffer; its bytes past the last cell are left alone."""
        self._ask_no_run()
        ask(len(buffer) >= self._array.words() * self._array.width(), 57)
        self._ask_room(self._chart_operations())
        chart = draw(self._array)
        buffer[: len(chart)] = bytes(chart)
        self._finding = Finding(FindingKind.CHARTED, sum(byte > 0 for byte in chart))
        self.charts += 1
        self._assert_rules()
        return self._finding

    def finding(self) -> Finding:
        return self._finding

    def place(self) -> int:
        return 0 if self.run is None else self.run.place

    def misses(self) -> int:
        return 0 if self.run is None else self.run.misses

    def tally(self) -> int:
        return self._array.tally()

    def books_line(self) -> str:
        """The books in one line, the tally of the array at its end."""
        return (
            f"books {self.hand} {self.starts} {self.closes} {self.charts} {self.quits} {int(self.run is not None)} "
            f"{self.place()} {self.misses()} {self._finding.kind.value} {self._finding.count} {self.tally()}"
        )

    def _assert_rules(self) -> None:
        """The finding is right, it is open exactly before the first close or chart, and the tally adds up."""
        kind, count = self._finding.kind, self._finding.count
        if kind is FindingKind.SOUND:
            assert self._array.sound()
        if kind is FindingKind.FAULTY:
            assert not self._array.sound()
        if kind is FindingKind.CHARTED:
            assert count == self._array.blemished_cells()
        assert (kind is FindingKind.OPEN) == (self.closes == 0 and self.charts == 0)
        accounted = (
            self._first_tally
            + self.hand
            + self._run_operations() * self.closes
            + self._chart_operations() * self.charts
            + self.quits
            + self.place()
        )
        assert self._array.tally() == accounted
