"""The cases that are always the same: worked examples, limits, cut texts, published dictionaries."""

from __future__ import annotations

from typing import Iterator

from case_format import Case
from case_makers import (
    EXAMPLE_ARRAY,
    MLT1_SHEET,
    array_text,
    bench_case,
    campaign_case,
    cells_case,
    judge_case,
    pair_lines,
    sheet_case,
    trial_case,
    without_columns,
    writer_case,
)
from cells import NAMED_FAULTS, PAIRS, STORAGE_DEFECTS
from march import MLT1, ORDERS, operations_of_a_run
from published import MARCH_17N_DICTIONARY, MARCH_17N_SHEET, T_H_DICTIONARY, T_H_SHEET
from sheets import sheet_of
from texts_at_random import lay_out, nested_remark


def published_cases() -> Iterator[tuple[Case, str]]:
    """The trials of the published dictionaries, each with its published outcomes."""
    for name, expected in T_H_DICTIONARY.items():
        yield trial_case(T_H_SHEET, array_text(1, 1, *pair_lines(0, 0, NAMED_FAULTS[name]))), expected
    for name, expected in MARCH_17N_DICTIONARY.items():
        yield trial_case(MARCH_17N_SHEET, array_text(1, 1, f"cell 0 0 {name}")), expected


def fixed_judge_cases() -> Iterator[Case]:
    yield judge_case(EXAMPLE_ARRAY)
    for text in (b"", b" ", b"\n", b"(tes#", b"(arra#", b"a" * 17 + b"#"):
        yield judge_case(text)
    for text in (b"(array 1 1\n)", b"(array 1 1\n)\n\n", b"(array 1 1)\n"):
        yield judge_case(text)
    yield judge_case(array_text(2, 1, "cell 0 0 wrong 0 0", "cell 1 0 wrong 1 0"))
    for words in ("0", "1", "256", "257", "0256", "00256", "9999", "256a"):
        yield judge_case(f"(array {words} 1\n)\n".encode("ascii"))
    for width in ("0", "1", "64", "65", "0064", "00064", "9999", "a64"):
        yield judge_case(f"(array 1 {width}\n)\n".encode("ascii"))
    yield judge_case(array_text(256, 64, "cell 0 0 sa0", "cell 255 63 wrong 1 0", "cell 255 0 nofall", "mark 128"))
    yield judge_case(array_text(256, 64))
    yield judge_case(array_text(256, 1, "mark 255", "mark 0"))
    for lines in (
        ["cell 0 0 sa0", "cell 0 0 sa0"],
        ["cell 0 0 sa0", "cell 0 0 nofall"],
        ["cell 0 0 sa0", "cell 0 0 wrong 0 0", "cell 0 0 wrong 0 1", "cell 0 0 wrong 1 1", "cell 0 0 wrong 1 0"],
        ["cell 0 0 wrong 1 0", "cell 0 0 wrong 1 0"],
        ["mark 1", "mark 0", "mark 1"],
        ["mark 1", "cell 1 0 norise", "note mark 1"],
        ["cell 2 0 sa0"],
        ["cell 0 1 sa0"],
        ["cell 2 1 sa0"],
        ["mark 2"],
        ["cell 0 0 good"],
        ["cell 0 0 wrong 0 2"],
        ["cell 0 0 wrong 01"],
        ["cell 0 0 wrong 0 1 0"],
        ["cell 0000 0000 sa1"],
        ["cell 00000 0 sa1"],
        ["up"],
        [""],
        ["note", "note (note)", "note (a)"],
        ["cell 0 0 sa0", "cell 0 0 sa1 "],
        ["cell 0 0 sa0", "cell 0 0 sa1 #"],
    ):
        yield judge_case(array_text(2, 1, *lines))
    yield judge_case(b"(array 1 1\n(mark 0)\n(mark 0) (note)\n)\n")
    yield judge_case(b"(array 1 1\n(mark 0)\n(mark 0)#\n)\n")
    for depth in (8, 9):
        remark = lay_out(nested_remark(depth, ["a"])).encode("ascii")
        yield judge_case(b"(array 1 1\n" + remark + b"\n)\n")
    yield judge_case(b"(array 1 1\n" + b"(note" * 8 + b"(x" + b")" * 9 + b"\n)\n")
    for letters in (16, 17):
        yield judge_case(b"(array 1 1\n(note " + b"z" * letters + b")\n)\n")
    for length in (4095, 4096, 4097, 5000):
        yield judge_case(EXAMPLE_ARRAY.ljust(length))
    yield judge_case(b"#" * 4096)
    yield judge_case(b"#" * 4097)
    for length in range(len(EXAMPLE_ARRAY)):
        yield judge_case(EXAMPLE_ARRAY[:length])
    # One cell with every set of defects.
    for mark in ([], ["mark 0"]):
        for storage in ([], *(["cell 0 0 " + name] for name in STORAGE_DEFECTS)):
            for number in range(16):
                wrong = frozenset(pair for i, pair in enumerate(PAIRS) if number >> i & 1)
                yield judge_case(array_text(1, 1, *storage, *pair_lines(0, 0, wrong), *mark))


def elements_sheet(count: int, *more: str) -> bytes:
    return ("(test a\n" + "(up (w 1))\n" * count + "".join(line + "\n" for line in more) + ")\n").encode("ascii")


def operations_sheet(order: str, count: int) -> bytes:
    return f"(test a\n({order}{' (c 0 hit)' * count})\n)\n".encode("ascii")


def fixed_sheet_cases() -> Iterator[Case]:
    yield sheet_case(MLT1_SHEET)
    for room in (0, len(MLT1_SHEET) - 1, len(MLT1_SHEET), len(MLT1_SHEET) + 1):
        yield sheet_case(MLT1_SHEET, room)
    for text in (
        b"",
        b" ",
        b"\n",
        b"(test a\n(columns (w 0))",
        b"(tes#",
        b"a" * 17 + b"#",
        b"(test a\n(note)\n)\n",
        b"(test a\n)\n",
        b"(test a\n(up)\n)\n",
        b"(test a\n(up (w 1))\n)",
        b"(test a\n(up (w 1))\n)\n ",
        b"(test a\n(up (w 1))\n)\n\n",
        b"(test a\n(up (w 1))\n)\n(",
        b"(test a\n(up(w 1)(r 1)(c 1 none)(e))\n)\n",
        b"  ( test  a \n ( up ( w 1 ) ) \n ) \n  ",
        b"(test a\n\n(up (w 1))\n)\n",
        b"(test a\n(up (w 1)) (note)\n)\n",
        b"(test a\n(up (note a))\n)\n",
        b"(test a\n(up (w 1) (note a))\n)\n",
        b"(test a\n(note\n)\n(up (w 1))\n)\n",
        b"(test a\n(up\n(w 1))\n)\n",
        b"(test a\n(up (w 2))\n)\n",
        b"(test a\n(up (w 00))\n)\n",
        b"(test a\n(up (w 01))\n)\n",
        b"(test a\n(up (w))\n)\n",
        b"(test a\n(up (e 0))\n)\n",
        b"(test a\n(up (c 0))\n)\n",
        b"(test a\n(up (c 0 own))\n)\n",
        b"(test a\n(columns (c 0 hit) (e))\n)\n",
        b"(test a\n(columns (r 2))\n)\n",
        b"(test a\n(columns (x 0))\n)\n",
        b"(test a (up (w 1))\n)\n",
        b"(test\n(up (w 1))\n)\n",
        b"(test (a)\n(up (w 1))\n)\n",
        b"(test up\n(up (w 1))\n)\n",
        b"(array 1 1\n)\n",
        b"(test a\n(w 1)\n)\n",
    ):
        yield sheet_case(text)
    for count in (15, 16, 17):
        yield sheet_case(elements_sheet(count))
    yield sheet_case(elements_sheet(16, "(note seventeen)"))
    yield sheet_case(elements_sheet(16, "(note seventeen)", "(down)"))
    yield sheet_case(elements_sheet(16, "(x)"))
    yield sheet_case(elements_sheet(16, "(columns(w"))
    for order in ORDERS:
        for count in (7, 8, 9):
            yield sheet_case(operations_sheet(order, count))
    yield sheet_case(b"(test a\n(columns" + b"(c 1 none)" * 8 + b"(w 0))\n)\n")
    yield sheet_case(b"(test a\n(up" + b"(e)" * 8 + b"(x))\n)\n")
    yield sheet_case(b"(test a\n" + (b"(columns" + b"(c 1 none)" * 8 + b")\n") * 16 + b")\n")
    for depth in (7, 8, 9):
        remark = lay_out(nested_remark(depth, [])).encode("ascii")
        yield sheet_case(b"(test a\n" + remark + b"\n(up (w 1))\n)\n")
    yield sheet_case(b"(test a\n" + b"(note" * 8 + b" (up" + b")" * 9 + b"\n(up (w 1))\n)\n")
    yield sheet_case(b"(test a\n" + b"(note" * 8 + b")" + b"(note)" * 3 + b")" * 7 + b"\n(up (w 1))\n)\n")
    for letters in (15, 16, 17):
        yield sheet_case(b"(test " + b"q" * letters + b"\n(up (w 1))\n)\n")
        yield sheet_case(b"(test a\n(note " + b"7" * letters + b")\n(up (w 1))\n)\n")
    for length in (4095, 4096, 4097):
        yield sheet_case(MLT1_SHEET.ljust(length))
        yield sheet_case(b"(test a\n(note" + b" a" * 2030 + b")\n(up (e))\n)\n".ljust(length - 4073))
    yield sheet_case(b"a" * 4097)
    for length in range(len(MLT1_SHEET)):
        yield sheet_case(MLT1_SHEET[:length])
    for byte in range(256):
        yield sheet_case(b"(test a\n(note a" + bytes([byte]) + b")\n(up (w 1))\n)\n")


def fixed_trial_cases() -> Iterator[Case]:
    for case, _ in published_cases():
        yield case
    yield trial_case(MLT1_SHEET, EXAMPLE_ARRAY)
    yield trial_case(MLT1_SHEET, EXAMPLE_ARRAY, -1)
    yield trial_case(MLT1_SHEET, EXAMPLE_ARRAY, 5, 2)
    yield trial_case(MLT1_SHEET, array_text(256, 64, "cell 200 60 wrong 0 0"))
    yield trial_case(b"(test a\n(up (r 1) (c 0 hit))\n)\n", array_text(2, 2, "cell 0 0 sa1", "cell 0 1 sa1"), 0, 2)


def fixed_campaign_cases() -> Iterator[Case]:
    for words, width in ((1, 1), (2, 3), (16, 16), (0, 1), (1, 0), (17, 1), (1, 17), (256, 64)):
        yield campaign_case(MLT1_SHEET, words, width)
    yield campaign_case(MLT1_SHEET, 3, 2, 2)
    yield campaign_case(MLT1_SHEET, 17, 2, 2)
    yield campaign_case(MLT1_SHEET, 3, 2, 7)
    for words, width in ((1, 1), (2, 3), (3, 2), (5, 4)):
        yield campaign_case(sheet_of(without_columns(MLT1)), words, width)
        yield campaign_case(T_H_SHEET, words, width)
        yield campaign_case(MARCH_17N_SHEET, words, width)
    # Words that stand in for each other give shares such as 1 of 6, which are not whole tenths.
    for words in range(3, 8):
        yield campaign_case(b"(test a\n(up (w 0) (c 0 hit))\n)\n", words, 2)


def fixed_cells_cases() -> Iterator[Case]:
    for storage in range(3):
        for number in range(81):
            states = tuple(number // 3**i % 3 for i in range(4))
            yield cells_case(1, 1, 1, [(number % 2, storage, *states)])
    for words, width in ((0, 1), (257, 1), (1, 0), (1, 65), (2, 3)):
        yield cells_case(0, words, width, [(1, 0, 0)] * 5)
        yield cells_case(1, words, width, [(1, 0, 0, 0, 0, 0)] * 5)
    tall = [(a % 2, a % 5 * (a % 7 == 0), a % 16 * (a % 11 == 0)) for a in range(257)]
    yield cells_case(0, 256, 1, tall, (255, 256, 0))
    yield cells_case(0, 2, 64, [(j % 2, 0, j % 16 * (j % 13 == 0)) for j in range(128)])
    yield cells_case(0, 2, 1, [(0, 0, 0), (1, 2, 0), (1, 1, 15)], (1, 1, 2, 0, 0))


def fixed_bench_cases() -> Iterator[Case]:
    yield bench_case(
        EXAMPLE_ARRAY,
        *("finding", "w 0 7 0", "w 1 5 2", "w 2 0 0", "w 0 8 0", "w 0 0 8", "w 2 8 8", "r 0", "r 1", "r 2"),
        *("c 7 0", "c 8 0", "c 0 8", "c 0 7", "c 5 2", "e 0", "e 2", "c 7 0", "step 1 1", "close 1", "quit 1"),
        *("start", "start", "whole", "w 9 9 9", "r 9", "c 9 9", "e 9", "chart 0", "chart 6"),
        *("step 2 5", "step 1 0", "step 1 5", "close 2", "close 1", "quit 2", "quit 1", "quit 1"),
        *("chart 5", "chart 6", "finding", "start", "step 1 3", "step 2 4294967295", "step 2 4294967295"),
        *("close 1", "close 2", "close 2", "whole", "finding", "chart 8", "start", "step 4 27", "finding"),
    )
    ones, high = 2**64 - 1, 2**63
    by_hand = (f"w 255 {ones} 0", "r 255", f"c {ones} 0", f"c 0 {ones}")
    yield bench_case(array_text(256, 64), *by_hand, "chart 16383", "whole")
    yield bench_case(array_text(1, 64, "mark 0"), f"w 0 {ones} {high}", "r 0", f"c 0 {ones}", "chart 64")
    # A run that is quit at each place leaves what its first operations left.
    for place in range(operations_of_a_run(2, 3) + 1):
        yield bench_case(EXAMPLE_ARRAY, "start", f"step 1 {place}", "finding", "quit 1", "r 0", "r 1", "c 7 0", "c 0 0")
    for place in range(operations_of_a_run(3, 1) + 1):
        yield bench_case(array_text(3, 1, "cell 1 0 wrong 1 0"), "start", f"step 1 {place}")


def fixed_writer_cases() -> Iterator[Case]:
    names = ("abcdefghijklmnop", "", "A", "abcdefghijklmnopq", "abcdefg")
    yield writer_case(14, *(f"begin {name}" for name in names), "open up")
    operations = ("w 0", "r 1", "e", *["c 0 hit"] * 3, "c 1 none", "w 1")
    yield writer_case(60, "begin a", "end", "open columns", "close", *operations, "close", "end")
    yield writer_case(999, "begin a", *(["open up", "e", "close"] * 16), "open down", "end")
    yield writer_case(999, "begin a", "open columns", *(["c 0 hit"] * 9), "w 1", "close", "end")
    for room in range(7, 15):
        yield writer_case(room, "begin a", "end", "open up", "close", "e", "close", "end")
    for room in range(22, 32):
        yield writer_case(room, "begin a1", "open down", "c 0 none", "close", "end")


def fixed_cases() -> Iterator[Case]:
    yield from fixed_judge_cases()
    yield from fixed_sheet_cases()
    yield from fixed_trial_cases()
    yield from fixed_campaign_cases()
    yield from fixed_cells_cases()
    yield from fixed_bench_cases()
    yield from fixed_writer_cases()
