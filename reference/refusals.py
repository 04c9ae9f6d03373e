"""Refusals: a number, and for texts the layer and the byte place."""

from __future__ import annotations


class Refusal(Exception):
    """A call or a text is refused.

    `number` says which question was answered no. `layer` and `place` are 0 for calls without a text; in a text the
    layers are 1 (words), 2 (forms) and 3 (meaning), and the place is the byte, counted from 0, where the trouble
    starts.
    """

    def __init__(self, number: int, layer: int = 0, place: int = 0) -> None:
        super().__init__(number, layer, place)
        self.number = number
        self.layer = layer
        self.place = place

    def line(self) -> str:
        """The refusal of a text as one line."""
        return f"refused {self.number} {self.layer} {self.place}"

    def short(self) -> str:
        """The refusal of a call as one line."""
        return f"refused {self.number}"


def ask(answer: bool, number: int) -> None:
    """Ask one question of a call without a text; no refuses it."""
    if not answer:
        raise Refusal(number)
