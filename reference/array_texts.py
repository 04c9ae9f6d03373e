"""Array texts: an array with its defects as a text."""

from __future__ import annotations

from typing import Callable

from arrays import MOST_BITS, MOST_WORDS, PlaneArray
from cells import STORAGE_DEFECTS
from refusals import Refusal
from texts import CLOSING, END, LINE_FEED, OPENING, Token, Tokens, drop_remark


def read_array(text: bytes) -> PlaneArray:
    """The new array that a text describes; the fault that comes first is raised."""
    tokens = Tokens(text)
    tokens.want(OPENING)
    tokens.want_word("array")
    words = _want_size(tokens, MOST_WORDS)
    width = _want_size(tokens, MOST_BITS)
    array = PlaneArray(words, width)
    tokens.want(LINE_FEED)
    while True:
        token = tokens.take()
        if token.kind == CLOSING:
            break
        if token.kind != OPENING:
            raise token.not_wanted()
        _read_line(tokens, array, token)
    tokens.want(LINE_FEED)
    tokens.want(END)
    return array


def _want_size(tokens: Tokens, most: int) -> int:
    number, place = tokens.want_number()
    if not 1 <= number <= most:
        raise Refusal(41, 3, place)
    return number


def _want_inside(tokens: Tokens, count: int) -> int:
    number, place = tokens.want_number()
    if number >= count:
        raise Refusal(42, 3, place)
    return number


def _read_line(tokens: Tokens, array: PlaneArray, bracket: Token) -> None:
    """Read a line to its line feed, and plant its defect then."""
    first = tokens.want_word("note", "cell", "mark")
    if first.word == "note":
        drop_remark(tokens)
        tokens.want(LINE_FEED)
        return
    word = _want_inside(tokens, array.words())
    if first.word == "mark":
        _end_line(tokens, bracket, array.plant_stuck_mark, word)
        return
    column = _want_inside(tokens, array.width())
    defect = tokens.want_word("wrong", *STORAGE_DEFECTS).word
    if defect == "wrong":
        held = tokens.want_bit()
        sought = tokens.want_bit()
        _end_line(tokens, bracket, array.plant_pair, word, column, (held, sought))
    else:
        _end_line(tokens, bracket, array.plant_storage, word, column, STORAGE_DEFECTS[defect])


def _end_line(tokens: Tokens, bracket: Token, plant: Callable[..., None], *arguments: object) -> None:
    """Take the end of a line; then ask whether its defect is new, and plant it."""
    tokens.want(CLOSING)
    tokens.want(LINE_FEED)
    try:
        plant(*arguments)
    except Refusal as refusal:
        assert refusal.number == 43
        raise Refusal(43, 3, bracket.place) from None
