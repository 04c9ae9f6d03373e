"""Functions that make one case each."""

from __future__ import annotations

from typing import Sequence

from answers import write_piece
from array_texts import read_array
from case_format import Case
from march import MLT1, Test, schedule
from refusals import Refusal
from sheets import PieceWriter, read_sheet, sheet_of

MOST_SHEET = 4096
"""Room for every sheet that can be written."""

EXAMPLE_ARRAY = b"(array 2 3\n(cell 1 2 sa0)\n(cell 0 0 wrong 0 1)\n)\n"
MLT1_SHEET = sheet_of(MLT1)


def judge_case(text: bytes) -> Case:
    return Case("judge", (text,))


def sheet_case(text: bytes, room: int = MOST_SHEET) -> Case:
    return Case("sheet", (text,), (room,))


def array_text(words: int, width: int, *lines: str) -> bytes:
    return "".join([f"(array {words} {width}\n", *(f"({line})\n" for line in lines), ")\n"]).encode("ascii")


def pair_lines(word: int, column: int, pairs: frozenset[tuple[int, int]]) -> list[str]:
    return [f"cell {word} {column} wrong {held} {sought}" for held, sought in sorted(pairs)]


def outcomes(test: Test, words: int, width: int) -> int:
    """The bytes that a trial writes."""
    return sum(step.gives_outcome() for step in schedule(test, words, width))


def trial_case(sheet: bytes, array: bytes, more_room: int = 0, rounds: int = 1) -> Case:
    """A trial with as much room as it needs, and `more_room` (less when negative)."""
    made = read_array(array)
    room = outcomes(read_sheet(sheet), made.words(), made.width()) + more_room
    return Case("trial", (sheet, array), (max(room, 0), rounds))


def campaign_case(sheet: bytes, words: int, width: int, records: int | None = None) -> Case:
    return Case("campaign", (sheet,), (words, width, words if records is None else records))


def bench_case(array: bytes, *calls: str) -> Case:
    return Case("bench", (array, "".join(call + "\n" for call in calls).encode("ascii")))


def standing_calls(room: int, calls: Sequence[str]) -> tuple[list[str], int]:
    """The calls of a writer without those that could not be written in the product, because no element is open, or one
    is (an earlier call was refused); and the bytes that they write."""
    writer, state, standing = PieceWriter(bytearray(room)), "new", []
    for call in calls:
        name = call.split(" ")[0]
        if state != {"begin": "new", "open": "between", "end": "between"}.get(name, "inside"):
            continue
        standing.append(call)
        try:
            write_piece(writer, call.encode("ascii"))
        except Refusal:
            continue
        state = {"begin": "between", "open": "inside", "close": "between", "end": "ended"}.get(name, state)
    return standing, writer.at


def writer_case(room: int, *calls: str) -> Case:
    standing, _ = standing_calls(room, calls)
    return Case("writer", ("".join(call + "\n" for call in standing).encode("ascii"),), (room,))


def cells_case(kind: int, words: int, width: int, cells: list[tuple[int, ...]], marks: tuple[int, ...] = ()) -> Case:
    rows = [*cells, *((mark,) for mark in marks)]
    payload = "".join(" ".join(map(str, row)) + "\n" for row in rows).encode("ascii")
    return Case("cells", (payload,), (kind, words, width, len(cells), len(marks)))


def without_columns(test: Test) -> Test:
    return Test(test.name, [element for element in test.elements if element.order != "columns"])
