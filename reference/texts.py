"""Texts: words, brackets and line feeds (layer 1), and what sheets and array texts have in common (layer 2).

A text is read token by token. Each token passes layer 1, then layer 2, then layer 3 before the next is looked at, so
nothing here looks ahead: a token is taken, and only then is it decided what to make of it.
"""

from __future__ import annotations

from dataclasses import dataclass

from refusals import Refusal

MOST_BYTES = 4096
MOST_LETTERS = 16
MOST_DEPTH = 8
WORD_BYTES = b"abcdefghijklmnopqrstuvwxyz0123456789"

OPENING, CLOSING, LINE_FEED, WORD, END = "(", ")", "line feed", "word", "end"


@dataclass(frozen=True)
class Token:
    kind: str
    place: int
    word: str = ""

    def not_wanted(self) -> Refusal:
        return Refusal(21, 2, self.place)


class Tokens:
    """The tokens of a text, taken from left to right."""

    def __init__(self, text: bytes) -> None:
        if len(text) > MOST_BYTES:
            raise Refusal(11, 1, MOST_BYTES)
        self._text = text
        self._at = 0

    def take(self) -> Token:
        """The next token, or the end. Layer 1 is asked here."""
        text = self._text
        while self._at < len(text) and text[self._at] == ord(" "):
            self._at += 1
        place = self._at
        if place == len(text):
            return Token(END, place)
        byte = text[place]
        if byte in b"()\n":
            self._at += 1
            return Token({ord("("): OPENING, ord(")"): CLOSING, ord("\n"): LINE_FEED}[byte], place)
        if byte not in WORD_BYTES:
            raise Refusal(12, 1, place)
        end = place
        while end < len(text) and text[end] in WORD_BYTES:
            end += 1
        if end - place > MOST_LETTERS:
            raise Refusal(13, 1, place)
        self._at = end
        return Token(WORD, place, text[place:end].decode("ascii"))

    def want(self, kind: str) -> Token:
        """Take a token of a kind."""
        token = self.take()
        if token.kind != kind:
            raise token.not_wanted()
        return token

    def want_word(self, *words: str) -> Token:
        """Take one of these words."""
        token = self.want(WORD)
        if token.word not in words:
            raise token.not_wanted()
        return token

    def want_bit(self) -> int:
        """Take the word 0 or the word 1."""
        return int(self.want_word("0", "1").word)

    def want_number(self) -> tuple[int, int]:
        """Take a word of 1 to 4 digits; the number and its place."""
        token = self.want(WORD)
        if not (token.word.isdigit() and len(token.word) <= 4):
            raise token.not_wanted()
        return int(token.word), token.place


def drop_remark(tokens: Tokens, depth: int = 1) -> None:
    """Read on behind the word `note` to the remark's closing bracket."""
    while True:
        token = tokens.take()
        if token.kind == CLOSING:
            return
        if token.kind == OPENING:
            if depth == MOST_DEPTH:
                raise Refusal(22, 2, token.place)
            tokens.want_word("note")
            drop_remark(tokens, depth + 1)
        elif token.kind != WORD:
            raise token.not_wanted()
