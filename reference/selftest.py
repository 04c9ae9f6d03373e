"""Self-test of the reference: worked examples, published dictionaries, and that the cases cover every refusal.

    python3 reference/selftest.py
"""

from __future__ import annotations

import sys
from itertools import product
from random import Random
from typing import Callable

from answers import answer
from array_texts import read_array
from arrays import TALLY_CAP, PlaneArray, all_but_column, equal_bits
from bench import LIMIT, Bench, Finding, FindingKind
from case_format import read_cases
from case_makers import EXAMPLE_ARRAY, MLT1_SHEET, array_text, pair_lines, without_columns
from cases import all_cases
from cells import NAMED_FAULTS, PAIRS, Storage, TableCell, Transistor, TransistorCell, every_transistor_cell
from charts import draw, operations_of_a_chart
from fixed_cases import elements_sheet, published_cases
from judge import judge
from march import MLT1, Element, Operation, Test, make_test, schedule
from refusals import Refusal
from sheets import read_sheet, sheet_of, write_test
from texts_at_random import random_test
from trials import campaign, trial


def refusal_of(call: Callable[..., object], *arguments: object) -> tuple[int, int, int] | None:
    """The refusal of a call, or none."""
    try:
        call(*arguments)
    except Refusal as refusal:
        return refusal.number, refusal.layer, refusal.place
    return None


def misses(text: bytes) -> int:
    return Bench(read_array(text)).run_whole().count


def test_masks() -> None:
    assert [all_but_column(j, 3) for j in range(3)] == [6, 5, 3]
    assert equal_bits(1, 64) == 2**64 - 1 and equal_bits(0, 7) == 0


def test_named_faults() -> None:
    """What a cell with each fault answers to each pair."""
    says = {
        "SMF": lambda held, sought: True,
        "SMMF": lambda held, sought: False,
        "CM1F": lambda held, sought: sought == 1,
        "CM0F": lambda held, sought: sought == 0,
        "PM1F": lambda held, sought: held == 1,
        "PM0F": lambda held, sought: held == 0,
        "EMM1F": lambda held, sought: held == sought and (held, sought) != (1, 1),
        "EMM0F": lambda held, sought: held == sought and (held, sought) != (0, 0),
        "IM1F": lambda held, sought: held == sought or (held, sought) == (1, 0),
        "IM0F": lambda held, sought: held == sought or (held, sought) == (0, 1),
    }
    assert list(says) == list(NAMED_FAULTS)
    for name, wrong in NAMED_FAULTS.items():
        for held, sought in PAIRS:
            assert TableCell(held, Storage.GOOD, wrong).answer(sought) == says[name](held, sought)


def test_storage() -> None:
    cell = TableCell(1, Storage.NORISE)
    held = []
    for bit in (1, 0, 1):
        cell.take(bit)
        held.append(cell.held())
    assert held == [1, 0, 0]


def test_transistors() -> None:
    assert TransistorCell(search_a=Transistor.STUCK_ON).wrong == {(1, 1)}
    table = {
        "storage_a": ((1, 0), (0, 0)),
        "search_a": ((1, 0), (1, 1)),
        "storage_b": ((0, 1), (1, 1)),
        "search_b": ((0, 1), (0, 0)),
    }
    for transistor, (when_open, when_on) in table.items():
        assert TransistorCell(**{transistor: Transistor.STUCK_OPEN}).wrong == {when_open}
        assert TransistorCell(**{transistor: Transistor.STUCK_ON}).wrong == {when_on}
    empty = [cell for cell in every_transistor_cell() if not cell.wrong]
    assert len(every_transistor_cell()) == 81 and len(empty) == 1
    assert len({cell.wrong for cell in every_transistor_cell()}) == 11


def test_array() -> None:
    array = PlaneArray(2, 3)
    array.write(0, 0b11111, 0b010)
    assert array.read(0) == 0b101 and array.compare(0b101, 0) and not array.compare(0b111, 0)
    assert array.compare(0b111, 0b010) and array.tally() == 5
    array.erase(0)
    assert not array.compare(0b101, 0) and array.read(0) == 0b101
    array.write(2, 7, 0)
    array.erase(9)
    assert array.read(2) == 0 and array.tally() == 11
    array.write(1, 0, 7)
    assert array.compare(0, 7)
    array._tally = TALLY_CAP - 1
    array.read(0)
    array.read(0)
    assert array.tally() == TALLY_CAP
    assert refusal_of(PlaneArray, 257, 1) == refusal_of(PlaneArray, 0, 1) == (41, 0, 0)
    assert refusal_of(PlaneArray, 257, 1, 0) == (41, 0, 0) and refusal_of(PlaneArray, 3, 1, 2) == (57, 0, 0)
    assert refusal_of(PlaneArray, 256, 64, 256) is None


def test_schedules() -> None:
    for words, width, count in ((1, 1, 13), (3, 3, 39), (256, 64, 2944)):
        assert len(list(schedule(MLT1, words, width))) == count
    assert operations_of_a_chart(1, 1) == 12 and operations_of_a_chart(256, 64) == 67584
    test = make_test("a", "down w 0, e", "columns c 1 hit, c 0 none")
    got = [(step.letter, step.word, step.pattern, step.mask) for step in schedule(test, 2, 2)]
    assert got == [("w", 1, 0, 0), ("e", 1, 0, 0), ("w", 0, 0, 0), ("e", 0, 0, 0)] + [
        ("c", 0, 3, 2),
        ("c", 0, 0, 2),
        ("c", 0, 3, 1),
        ("c", 0, 0, 1),
    ]


def test_charts() -> None:
    assert draw(read_array(EXAMPLE_ARRAY)) == [2, 0, 0, 0, 0, 16]
    stuck = array_text(2, 3, "cell 1 2 sa0", "cell 0 0 wrong 0 1", "mark 0")
    assert draw(read_array(stuck)) == [64, 64, 64, 0, 0, 16]


def test_worked_arrays() -> None:
    assert misses(EXAMPLE_ARRAY) == 4
    masked = Bench(read_array(array_text(2, 1, "cell 0 0 wrong 0 0", "cell 1 0 wrong 1 0")))
    assert masked.run_whole() == Finding(FindingKind.FAULTY, 1)
    for lines, byte in ((["mark 0"], 64), (pair_lines(0, 0, NAMED_FAULTS["SMMF"]), 5)):
        text = array_text(1, 1, *lines)
        assert misses(text) == 2 and draw(read_array(text)) == [byte]


def test_separation() -> None:
    """A run has no miss exactly without a defect: every array of 1 x 1, and every start, all together."""
    for storage, number, stuck, held, marked in product(Storage, range(16), (False, True), (0, 1), (False, True)):
        array = PlaneArray(1, 1)
        if storage is not Storage.GOOD:
            array.plant_storage(0, 0, storage)
        array.plant_pairs(0, 0, [pair for i, pair in enumerate(PAIRS) if number >> i & 1])
        if stuck:
            array.plant_stuck_mark(0)
        array.write(0, held, 0)
        if not marked:
            array.erase(0)
        sound = storage is Storage.GOOD and number == 0 and not stuck
        found = Bench(array).run_whole()
        assert (found.kind is FindingKind.SOUND) == sound == array.sound()


def test_limit() -> None:
    """The tally's limit, which no case reaches."""
    array = PlaneArray(2, 3)
    array._tally = LIMIT - 27
    bench = Bench(array)
    assert refusal_of(bench.start) == (54, 0, 0) and refusal_of(bench.run_whole) == (54, 0, 0)
    assert refusal_of(bench.chart, bytearray(5)) == (57, 0, 0) and refusal_of(bench.chart, bytearray(6)) == (54, 0, 0)
    for _ in range(27):
        bench.read(0)
    for call, arguments in ((bench.read, (0,)), (bench.write, (0, 0, 0)), (bench.compare, (0, 0)), (bench.erase, (0,))):
        assert refusal_of(call, *arguments) == (54, 0, 0)
    assert refusal_of(bench.write, 2, 8, 0) == (52, 0, 0) and refusal_of(bench.write, 1, 8, 0) == (53, 0, 0)
    array._tally = bench._first_tally = LIMIT - 28
    bench.hand = 0
    assert bench.run_whole() == Finding(FindingKind.SOUND)


def test_judge() -> None:
    printed = ["array 2 3", "run 28 misses 4 faulty", "chart 40 cells 2", "cell 0 0 2", "cell 1 2 16"]
    assert judge(EXAMPLE_ARRAY) == printed
    assert judge(b"") == ["refused 21 2 0"]
    assert judge(array_text(256, 1))[1] == "run 2818 misses 0 sound"
    assert judge(array_text(257, 1)) == ["refused 41 3 7"]
    assert judge(b"(array 2 1\n(mark 0)\n(mark 0)\n)\n") == ["refused 43 3 20"]
    assert judge(b"(array 2 1\n(mark 0)\n(mark 0)#\n)\n") == ["refused 12 1 28"]
    assert judge(b"(array 2 1\n(cell 2 1 sa0)\n)\n") == ["refused 42 3 17"]
    assert judge(b"(array 2 1\n(cell 1 1 sa0)\n)\n") == ["refused 42 3 19"]


def test_sheets() -> None:
    assert read_sheet(MLT1_SHEET) == MLT1 and len(MLT1_SHEET) == 158
    longest = make_test("a" * 16, *["columns " + ", ".join(["c 0 none"] * 8)] * 16)
    assert len(sheet_of(longest)) == 1593
    assert refusal_of(read_sheet, b"") == (21, 2, 0)
    assert refusal_of(read_sheet, b"(test a\n(columns (w 0))") == (33, 3, 18)
    assert refusal_of(read_sheet, b"(tes#") == (21, 2, 1)
    assert refusal_of(read_sheet, b"a" * 17 + b"#") == (13, 1, 0)
    assert refusal_of(read_sheet, b"(test a\n(note)\n)\n") == (21, 2, 15)
    assert refusal_of(read_sheet, b"(test a\n(up)\n)\n") == (21, 2, 11)
    assert refusal_of(read_sheet, b"(test a\n(up (e))\n)") == (21, 2, 18)
    assert len(read_sheet(elements_sheet(16)).elements) == 16
    assert refusal_of(read_sheet, elements_sheet(17)) == (31, 3, 8 + 16 * 11)
    assert len(read_sheet(elements_sheet(16, "(note)")).elements) == 16
    assert read_sheet(MLT1_SHEET.ljust(4096)) == MLT1
    assert refusal_of(read_sheet, MLT1_SHEET.ljust(4097)) == (11, 1, 4096)
    deep = b"(test a\n" + b"(note" * 9 + b")" * 9 + b"\n(up (e))\n)\n"
    assert refusal_of(read_sheet, deep) == (22, 2, 8 + 8 * 5)
    rng = Random(7)
    for _ in range(300):
        test = random_test(rng, 16)
        assert read_sheet(sheet_of(test)) == test


def test_tests() -> None:
    test = Test("a")
    assert refusal_of(write_test, test, bytearray(99)) == (62, 0, 0)
    assert refusal_of(test.add_operation, Operation("e")) == (62, 0, 0)
    test.add_element(Element("columns"))
    assert refusal_of(write_test, test, bytearray(99)) == (62, 0, 0)
    assert refusal_of(test.add_operation, Operation("e")) == (33, 0, 0)
    for _ in range(8):
        test.add_operation(Operation("c", 0, True))
    assert refusal_of(test.add_operation, Operation("e")) == (32, 0, 0)
    for _ in range(15):
        test.add_element(Element("up"))
    assert refusal_of(test.add_element, Element("up")) == (31, 0, 0)


def test_published() -> None:
    """The outcomes of the published tests are the published ones."""
    count = 0
    for case, expected in published_cases():
        _, outcomes = answer(case).decode("ascii").split("\n")[:2]
        assert outcomes == expected, (case, outcomes, expected)
        count += 1
    assert count == 12


def test_trials() -> None:
    array = read_array(EXAMPLE_ARRAY)
    buffer = bytearray([9] * 15)
    assert trial(array, MLT1, buffer) == (28, 4) and sum(buffer[:14]) == 4 and buffer[14] == 9
    assert list(buffer[:14]) == [0, 0, 0, 1, 1, 0, 0, 1, 0, 0, 0, 0, 0, 1]
    assert refusal_of(trial, array, MLT1, bytearray(13)) == (71, 0, 0) and array.tally() == 28


def test_campaigns() -> None:
    for words, width in ((1, 1), (2, 3), (16, 16)):
        rows = campaign(MLT1, words, width)
        assert len(rows) == 15
        for row in rows:
            assert row.detected == row.total == (words if row.fault == "mark" else words * width)
            assert row.tenths() == 1000
    for words, width in ((0, 1), (1, 0), (17, 1), (1, 17)):
        assert refusal_of(campaign, MLT1, words, width, 0) == (81, 0, 0)
    assert refusal_of(campaign, MLT1, 3, 1, 2) == (57, 0, 0)
    reading = make_test("a", "up w 1", "up r 1, w 0", "up r 0")
    assert [row.detected for row in campaign(reading, 4, 4)] == [0] * 10 + [16] * 4 + [0]
    found = ("SMMF", "CM1F", "PM1F", "EMM0F", "sa1")
    for row in campaign(make_test("a", "up w 0, c 0 hit"), 3, 4):
        expected = "1 3 333" if row.fault == "mark" else "4 12 333" if row.fault in found else "0 12 0"
        assert row.line() == expected
    rows = campaign(without_columns(MLT1), 2, 3)
    assert any(row.detected < row.total for row in rows)
    print("MLT-1 without its columns elements, 2 words of 3 bits (fault: detected total tenths):")
    for row in rows:
        print(f"  {row.fault}: {row.line()}")


REFUSED = {
    "judge": {11, 12, 13, 21, 22, 41, 42, 43},
    "sheet": {11, 12, 13, 21, 22, 31, 32, 33, 61},
    "writer": {31, 32, 33, 61, 62, 63},
    "bench": {51, 52, 53, 55, 56, 57},
    "trial": {71},
    "campaign": {57, 81},
    "cells": {41, 42, 43, 57},
}
"""The refusals that the cases of each kind show; 54 needs more operations than a case can have."""


def test_cases() -> None:
    """The cases read back as they were written, and show every refusal, each random kind too."""
    cases = list(all_cases())
    assert list(read_cases(b"".join(case.to_bytes() for case in cases))) == cases
    seen: dict[str, set[int]] = {kind: set() for kind in REFUSED}
    kinds = dict.fromkeys(REFUSED, 0)
    for case in cases:
        kinds[case.kind] += 1
        for line in answer(case).split(b"\n"):
            if line.startswith(b"refused "):
                seen[case.kind].add(int(line.split(b" ")[1]))
    assert seen == REFUSED, seen
    print(f"{len(cases)} cases: {kinds}")


def main() -> int:
    tests = [(name, test) for name, test in globals().items() if name.startswith("test_")]
    for name, test in tests:
        test()
    print(f"{len(tests)} tests passed")
    return 0


if __name__ == "__main__":
    sys.exit(main())
