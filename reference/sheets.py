"""Test sheets: the reader, the writer of whole tests, and the writer of pieces."""

from __future__ import annotations

from march import MOST_ELEMENTS, MOST_OPERATIONS, ORDERS, Element, Operation, Test
from refusals import Refusal, ask
from texts import CLOSING, END, LINE_FEED, MOST_LETTERS, OPENING, WORD, WORD_BYTES, Token, Tokens, drop_remark


def read_sheet(text: bytes) -> Test:
    """The test of a sheet; the fault that comes first is raised."""
    tokens = Tokens(text)
    tokens.want(OPENING)
    tokens.want_word("test")
    test = Test(tokens.want(WORD).word)
    tokens.want(LINE_FEED)
    while True:
        token = tokens.take()
        if token.kind == CLOSING and test.elements:
            break
        if token.kind != OPENING:
            raise token.not_wanted()
        _read_line(tokens, test, token)
    tokens.want(LINE_FEED)
    tokens.want(END)
    return test


def _read_line(tokens: Tokens, test: Test, bracket: Token) -> None:
    first = tokens.want_word("note", *ORDERS)
    if first.word == "note":
        drop_remark(tokens)
    else:
        if len(test.elements) == MOST_ELEMENTS:
            raise Refusal(31, 3, bracket.place)
        test.add_element(_read_operations(tokens, first.word))
    tokens.want(LINE_FEED)


def _read_operations(tokens: Tokens, order: str) -> Element:
    """Read on behind the word that opens an element to its closing bracket."""
    element = Element(order)
    while True:
        token = tokens.take()
        if token.kind == CLOSING and element.operations:
            return element
        if token.kind != OPENING:
            raise token.not_wanted()
        if len(element.operations) == MOST_OPERATIONS:
            raise Refusal(32, 3, token.place)
        element.add(_read_operation(tokens, order))


def _read_operation(tokens: Tokens, order: str) -> Operation:
    letter = tokens.want_word("w", "r", "c", "e")
    if order == "columns" and letter.word != "c":
        raise Refusal(33, 3, letter.place)
    value = None if letter.word == "e" else tokens.want_bit()
    hit = tokens.want_word("hit", "none").word == "hit" if letter.word == "c" else None
    tokens.want(CLOSING)
    return Operation(letter.word, value, hit)


def sheet_of(test: Test) -> bytes:
    """The bytes of a test's sheet, with single spaces."""
    lines = [f"(test {test.name}"]
    for element in test.elements:
        lines.append(f"({element.order} {' '.join(operation.text() for operation in element.operations)})")
    lines.append(")")
    return "".join(line + "\n" for line in lines).encode("ascii")


def write_test(test: Test, buffer: bytearray) -> int:
    """Write a whole test, and answer the sheet's length."""
    ask(test.whole(), 62)
    sheet = sheet_of(test)
    ask(len(sheet) <= len(buffer), 61)
    buffer[: len(sheet)] = sheet
    return len(sheet)


def name_allowed(name: bytes) -> bool:
    return 1 <= len(name) <= MOST_LETTERS and all(byte in WORD_BYTES for byte in name)


class PieceWriter:
    """A sheet written piece by piece. A refused call writes nothing and changes nothing.

    The pieces are `(test NAME` with its line feed, `(up`, a space with the operation, `)` with a line feed for the
    element, and the same for the sheet. Calls that come in another order cannot be written in the product; here they
    are programming errors.
    """

    def __init__(self, buffer: bytearray) -> None:
        self._buffer = buffer
        self.at = 0
        self._elements = 0
        self._open: Element | None = None

    def _ask_fit(self, piece: bytes) -> None:
        ask(self.at + len(piece) <= len(self._buffer), 61)

    def _put(self, piece: bytes) -> None:
        self._buffer[self.at : self.at + len(piece)] = piece
        self.at += len(piece)

    def begin(self, name: bytes) -> None:
        assert self.at == 0
        ask(name_allowed(name), 63)
        piece = b"(test " + name + b"\n"
        self._ask_fit(piece)
        self._put(piece)

    def open(self, order: str) -> None:
        assert self._open is None
        ask(self._elements < MOST_ELEMENTS, 31)
        piece = f"({order}".encode("ascii")
        self._ask_fit(piece)
        self._put(piece)
        self._open = Element(order)

    def write(self, operation: Operation) -> None:
        element = self._open
        assert element is not None
        ask(len(element.operations) < MOST_OPERATIONS, 32)
        ask(element.order != "columns" or operation.letter == "c", 33)
        piece = f" {operation.text()}".encode("ascii")
        self._ask_fit(piece)
        self._put(piece)
        element.add(operation)

    def close(self) -> None:
        assert self._open is not None
        self._ask_fit(b")\n")
        ask(len(self._open.operations) > 0, 62)
        self._put(b")\n")
        self._open = None
        self._elements += 1

    def end(self) -> None:
        assert self._open is None
        self._ask_fit(b")\n")
        ask(self._elements > 0, 62)
        self._put(b")\n")
