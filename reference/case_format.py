"""Cases as bytes: a header line, the payloads, a line feed (README.md has the format)."""

from __future__ import annotations

from dataclasses import dataclass
from typing import Iterator

PAYLOADS: dict[str, int] = {
    "judge": 1,
    "sheet": 1,
    "writer": 1,
    "bench": 2,
    "trial": 2,
    "campaign": 1,
    "cells": 1,
}
"""How many payloads each kind of case has; their lengths are the first numbers of the header."""


@dataclass(frozen=True)
class Case:
    kind: str
    payloads: tuple[bytes, ...]
    numbers: tuple[int, ...] = ()

    def to_bytes(self) -> bytes:
        assert len(self.payloads) == PAYLOADS[self.kind]
        words = [self.kind, *(str(len(payload)) for payload in self.payloads), *map(str, self.numbers)]
        return " ".join(words).encode("ascii") + b"\n" + b"".join(self.payloads) + b"\n"


def read_cases(text: bytes) -> Iterator[Case]:
    """The cases of an input."""
    at = 0
    while at < len(text):
        end = text.index(b"\n", at)
        kind, *words = text[at:end].decode("ascii").split(" ")
        numbers = [int(word) for word in words]
        at = end + 1
        payloads = []
        for length in numbers[: PAYLOADS[kind]]:
            payloads.append(text[at : at + length])
            assert len(payloads[-1]) == length
            at += length
        assert text[at : at + 1] == b"\n"
        at += 1
        yield Case(kind, tuple(payloads), tuple(numbers[PAYLOADS[kind] :]))
