"""The expected answers of cases.

    python3 reference/answers.py < CASES > ANSWERS
"""

from __future__ import annotations

import sys

from array_texts import read_array
from arrays import CellField
from bench import Bench
from case_format import Case, read_cases
from cells import PAIRS, Cell, Storage, TableCell, Transistor, TransistorCell
from judge import judge
from march import EVERY_OPERATION
from refusals import Refusal
from sheets import PieceWriter, read_sheet, write_test
from trials import campaign, trial

BENCH_FILL = 170
"""What a chart's buffer holds before it is drawn into."""
TRIAL_FILL = 2
"""What a trial's buffer holds before the first round."""
SHEET_FILL = ord(".")
"""What a sheet writer's buffer holds before the first piece."""


def lines(*texts: str) -> bytes:
    return "".join(text + "\n" for text in texts).encode("ascii")


def answer_judge(case: Case) -> bytes:
    return lines(*judge(case.payloads[0]))


def answer_sheet(case: Case) -> bytes:
    (room,) = case.numbers
    buffer = bytearray([SHEET_FILL] * room)
    try:
        length = write_test(read_sheet(case.payloads[0]), buffer)
    except Refusal as refusal:
        return lines(refusal.line())
    return bytes(buffer[:length])


def answer_writer(case: Case) -> bytes:
    (room,) = case.numbers
    buffer = bytearray([SHEET_FILL] * room)
    writer = PieceWriter(buffer)
    answers = []
    for call in case.payloads[0].split(b"\n")[:-1]:
        try:
            write_piece(writer, call)
            answers.append(f"done {writer.at}")
        except Refusal as refusal:
            answers.append(refusal.short())
    return lines(*answers) + bytes(buffer) + b"\n"


def write_piece(writer: PieceWriter, call: bytes) -> None:
    """Do one call of a writer, given as its line."""
    name, _, rest = call.partition(b" ")
    if name == b"begin":
        writer.begin(rest)
    elif name == b"open":
        writer.open(rest.decode("ascii"))
    elif name == b"close":
        writer.close()
    elif name == b"end":
        writer.end()
    else:
        (operation,) = [each for each in EVERY_OPERATION if each.text() == f"({call.decode('ascii')})"]
        writer.write(operation)


def answer_bench(case: Case) -> bytes:
    bench = Bench(read_array(case.payloads[0]))
    answers = []
    for call in case.payloads[1].decode("ascii").split("\n")[:-1]:
        name, *words = call.split(" ")
        try:
            answers.append(bench_call(bench, name, [int(word) for word in words]))
        except Refusal as refusal:
            answers.append(refusal.short())
    return lines(*answers, bench.books_line())


def bench_call(bench: Bench, name: str, numbers: list[int]) -> str:
    """Do one call on a bench, and answer its line."""
    if name == "w":
        bench.write(*numbers)
        return "done"
    if name == "r":
        return f"{bench.read(*numbers)}"
    if name == "c":
        return "hit" if bench.compare(*numbers) else "none"
    if name == "e":
        bench.erase(*numbers)
        return "done"
    if name == "start":
        return f"ticket {bench.start()}"
    if name == "step":
        return f"{bench.step(*numbers)}"
    if name == "close":
        return bench.close(*numbers).line()
    if name == "quit":
        bench.quit(*numbers)
        return "done"
    if name == "whole":
        return bench.run_whole().line()
    if name == "chart":
        buffer = bytearray([BENCH_FILL] * numbers[0])
        found = bench.chart(buffer)
        return " ".join([found.line(), *map(str, buffer)])
    assert name == "finding"
    return bench.finding().line()


def answer_trial(case: Case) -> bytes:
    room, rounds = case.numbers
    test, array = read_sheet(case.payloads[0]), read_array(case.payloads[1])
    buffer = bytearray([TRIAL_FILL] * room)
    answers = []
    for _ in range(rounds):
        try:
            operations, misses = trial(array, test, buffer)
            answers.append(f"{operations} {misses}")
        except Refusal as refusal:
            answers.append(refusal.short())
        answers.append("".join(map(str, buffer)))
    return lines(*answers)


def answer_campaign(case: Case) -> bytes:
    words, width, records = case.numbers
    try:
        return lines(*(row.line() for row in campaign(read_sheet(case.payloads[0]), words, width, records)))
    except Refusal as refusal:
        return lines(refusal.short())


def table_cell(held: int, storage: int, wrong: int) -> TableCell:
    """A cell from its line: `wrong` is the sum of 1, 2, 4, 8 for 00, 01, 11, 10."""
    return TableCell(held, Storage(storage), frozenset(pair for i, pair in enumerate(PAIRS) if wrong >> i & 1))


def transistor_cell(held: int, storage: int, *transistors: int) -> TransistorCell:
    return TransistorCell(held, Storage(storage), *map(Transistor, transistors))


def answer_cells(case: Case) -> bytes:
    kind, words, width, cell_count, mark_count = case.numbers
    make = (table_cell, transistor_cell)[kind]
    rows = [[int(word) for word in line.split(b" ")] for line in case.payloads[0].split(b"\n")[:-1]]
    assert len(rows) == cell_count + mark_count
    cells: list[Cell] = [make(*row) for row in rows[:cell_count]]
    try:
        field = CellField(cells, words, width)
    except Refusal as refusal:
        return lines(refusal.short())
    answers = []
    for (word,) in rows[cell_count:]:
        try:
            field.plant_stuck_mark(word)
            answers.append("done")
        except Refusal as refusal:
            answers.append(refusal.short())
    bench = Bench(field)
    buffer = bytearray(words * width)
    answers.append(bench.run_whole().line())
    answers.append(bench.chart(buffer).line())
    answers.append(" ".join(["chart", *map(str, buffer)]))
    answers.append("held " + "".join(str(cell.held()) for cell in cells))
    return lines(*answers)


ANSWERERS = {
    "judge": answer_judge,
    "sheet": answer_sheet,
    "writer": answer_writer,
    "bench": answer_bench,
    "trial": answer_trial,
    "campaign": answer_campaign,
    "cells": answer_cells,
}


def answer(case: Case) -> bytes:
    """The expected answer of a case: whole lines, one or more."""
    return ANSWERERS[case.kind](case)


def main() -> None:
    for case in read_cases(sys.stdin.buffer.read()):
        sys.stdout.buffer.write(answer(case))


if __name__ == "__main__":
    main()
