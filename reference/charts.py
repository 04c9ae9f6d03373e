"""The chart of an array: drawn by operations, and defined by the defects."""

from __future__ import annotations

from arrays import TALLY_CAP, Array, all_but_column, bit, equal_bits
from cells import HIGH, LOW

LOW_BYTE, HIGH_BYTE, STUCK_BYTE = 16, 32, 64


def operations_of_a_chart(words: int, width: int) -> int:
    return words * (8 + 4 * width)


def chart_from_answers(array: Array) -> list[int]:
    """Do the operations of a chart one by one, and make the bytes of their answers alone."""
    words, width = array.words(), array.width()
    ones, zeros = equal_bits(1, width), 0
    before = array.tally()
    chart: list[int] = []
    for word in range(words):
        array.erase(word)
    for word in range(words):
        array.write(word, ones, 0)
        array.write(word, zeros, 0)
        after_zeros = array.read(word)
        mark_works = array.compare(zeros, ones)
        zero_finds_zero = [array.compare(zeros, all_but_column(j, width)) for j in range(width)]
        one_finds_zero = [array.compare(ones, all_but_column(j, width)) for j in range(width)]
        array.write(word, ones, 0)
        after_ones = array.read(word)
        one_finds_one = [array.compare(ones, all_but_column(j, width)) for j in range(width)]
        zero_finds_one = [array.compare(zeros, all_but_column(j, width)) for j in range(width)]
        array.erase(word)
        for j in range(width):
            came_to_zero, came_to_one = not bit(after_zeros, j), bool(bit(after_ones, j))
            chart.append(
                1 * (mark_works and came_to_zero and not zero_finds_zero[j])
                + 2 * (mark_works and came_to_zero and one_finds_zero[j])
                + 4 * (mark_works and came_to_one and not one_finds_one[j])
                + 8 * (mark_works and came_to_one and zero_finds_one[j])
                + LOW_BYTE * (not came_to_one)
                + HIGH_BYTE * (not came_to_zero)
                + STUCK_BYTE * (not mark_works)
            )
    assert array.tally() == min(before + operations_of_a_chart(words, width), TALLY_CAP)
    return chart


def byte_from_defects(array: Array, word: int, column: int) -> int:
    """The byte of a cell, as it is defined by the defects."""
    storage, wrong, stuck = array.storage(word, column), array.wrong(word, column), array.mark_stuck(word)
    seen_at_0 = not stuck and storage not in HIGH
    seen_at_1 = not stuck and storage not in LOW
    return (
        1 * ((0, 0) in wrong and seen_at_0)
        + 2 * ((0, 1) in wrong and seen_at_0)
        + 4 * ((1, 1) in wrong and seen_at_1)
        + 8 * ((1, 0) in wrong and seen_at_1)
        + LOW_BYTE * (storage in LOW)
        + HIGH_BYTE * (storage in HIGH)
        + STUCK_BYTE * stuck
    )


def chart_from_defects(array: Array) -> list[int]:
    return [byte_from_defects(array, a, j) for a in range(array.words()) for j in range(array.width())]


def draw(array: Array) -> list[int]:
    """The chart of an array. That the answers give what the defects define is asserted at every chart."""
    chart = chart_from_answers(array)
    assert chart == chart_from_defects(array)
    assert sum(byte > 0 for byte in chart) == array.blemished_cells()
    return chart
