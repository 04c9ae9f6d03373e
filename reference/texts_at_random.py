"""Random texts for cases: tests, array texts, ways to lay them out and ways to damage them."""

from __future__ import annotations

from dataclasses import dataclass, field
from random import Random

from arrays import PlaneArray
from cells import NAMED_FAULTS, PAIRS, STORAGE_DEFECTS, Pair
from march import COMPARES, EVERY_OPERATION, MOST_ELEMENTS, MOST_OPERATIONS, ORDERS, Element, Test, missed, schedule

LETTERS = "abcdefghijklmnopqrstuvwxyz0123456789"
WORDS = (
    *("test array cell mark note up down columns w r c e hit none sa0 sa1 norise nofall wrong good").split(),
    *("0 1 2 3 00 01 10 11 0000 0001 64 65 255 256 257 0256 9999 00000 12345 1a a1 valid own x tes testt").split(),
)
"""Words that a damaged text may have in the wrong place."""
BYTES_NOT_ALLOWED = b"#A-_\t\r\0\x7f\x80\xff;.\"'[]{}Z`:/@"

Tokens = list[str]
"""The tokens of a text: words, brackets and line feeds as strings."""


def lay_out(tokens: Tokens) -> str:
    """A text of its tokens as a writer lays it out: single spaces, none inside of brackets or at a line's ends."""
    text = ""
    for before, token in zip(["\n", *tokens], tokens):
        if before not in ("(", "\n") and token not in (")", "\n"):
            text += " "
        text += token
    return text


def lay_out_loosely(rng: Random, tokens: Tokens) -> str:
    """A text of its tokens with spaces wherever they may stand, and sometimes none where none is needed."""
    text = ""
    for before, token in zip(["\n", *tokens], tokens):
        needed = before not in "()\n" and token not in "()\n"
        text += " " * (int(needed) + rng.choice((0, 0, 0, 1, 2)))
        text += token
    return text + " " * rng.choice((0, 0, 0, 1, 3))


def random_word(rng: Random) -> str:
    return "".join(rng.choice(LETTERS) for _ in range(rng.choice((1, 1, 2, 3, 5, 8, 15, 16))))


def random_remark(rng: Random, depth: int = 1) -> Tokens:
    """A remark without its line feed."""
    tokens = ["(", "note"]
    for _ in range(rng.choice((0, 1, 1, 2, 3))):
        if depth < 8 and rng.random() < 0.3:
            tokens += random_remark(rng, depth + 1)
        else:
            tokens.append(random_word(rng) if rng.random() < 0.5 else rng.choice(WORDS))
    return [*tokens, ")"]


def nested_remark(depth: int, inside: Tokens) -> Tokens:
    """A remark of this depth."""
    return ["(", "note"] * depth + inside + [")"] * depth


def random_test(rng: Random, most_elements: int = 5, columns: bool = True) -> Test:
    test = Test(random_word(rng))
    for _ in range(rng.randint(1, most_elements)):
        order = rng.choice(ORDERS if columns else ORDERS[:2])
        element = Element(order)
        for _ in range(rng.choice((1, 1, 2, 2, 3, 3, 4, 8))):
            element.add(rng.choice(COMPARES if order == "columns" else EVERY_OPERATION))
        test.add_element(element)
    return test


def random_fitting_test(rng: Random, words: int, width: int) -> Test:
    """A test that a new array of this size without defects passes, so that its misses tell of defects."""
    test = Test(random_word(rng))
    for _ in range(rng.randint(2, 6)):
        test.add_element(Element(rng.choice(ORDERS)))
        element, wanted = test.elements[-1], rng.choice((1, 1, 2, 3, 4))
        while len(element.operations) < wanted:
            element.add(rng.choice(COMPARES if element.order == "columns" else EVERY_OPERATION))
            array = PlaneArray(words, width)
            if any(missed(array, step) for step in schedule(test, words, width)):
                element.operations.pop()
    return test


def sheet_tokens(test: Test) -> Tokens:
    tokens = ["(", "test", test.name, "\n"]
    for element in test.elements:
        tokens += ["(", element.order]
        for operation in element.operations:
            tokens += ["(", *operation.text()[1:-1].split(" "), ")"]
        tokens += [")", "\n"]
    return [*tokens, ")", "\n"]


@dataclass
class ArrayPlan:
    """An array text before it is laid out. `lines` are lists of words such as `cell 0 1 sa0`."""

    words: str
    width: str
    lines: list[list[str]] = field(default_factory=list)

    def tokens(self) -> Tokens:
        tokens = ["(", "array", self.words, self.width, "\n"]
        for line in self.lines:
            tokens += ["(", *line, ")", "\n"]
        return [*tokens, ")", "\n"]


def random_size(rng: Random) -> tuple[int, int]:
    if rng.random() < 0.03:
        return rng.choice(((1, 64), (9, 2), (12, 1), (3, 33), (2, 17), (17, 3)))
    return rng.randint(1, 4), rng.randint(1, 4)


def padded(rng: Random, number: int) -> str:
    """A number, now and then with leading zeros."""
    return str(number).zfill(rng.choice((1, 1, 1, 1, 1, 2, 3, 4)))


def pair_line(word: str, column: str, pair: Pair) -> list[str]:
    return ["cell", word, column, "wrong", str(pair[0]), str(pair[1])]


def random_array(rng: Random, words: int, width: int, most_defects: int = 6) -> ArrayPlan:
    """An array with some defects, none of them twice."""
    plan = ArrayPlan(padded(rng, words), padded(rng, width))
    used: set[tuple[object, ...]] = set()
    for _ in range(rng.choice((0, 1, 1, 2, 2, 3, most_defects))):
        word, column = rng.randrange(words), rng.randrange(width)
        kind = rng.choice(("storage", "storage", "pair", "pair", "named", "mark"))
        a, j = padded(rng, word), padded(rng, column)
        new: list[tuple[tuple[object, ...], list[str]]]
        if kind == "storage":
            new = [((word, column), ["cell", a, j, rng.choice(list(STORAGE_DEFECTS))])]
        elif kind == "mark":
            new = [((word,), ["mark", a])]
        else:
            pairs = [rng.choice(PAIRS)] if kind == "pair" else sorted(rng.choice(list(NAMED_FAULTS.values())))
            new = [((word, column, pair), pair_line(a, j, pair)) for pair in pairs]
        for key, line in new:
            if key not in used:
                used.add(key)
                plan.lines.append(line)
    return plan


def with_remarks(rng: Random, tokens: Tokens) -> Tokens:
    """The same text with remarks between its lines."""
    result: Tokens = []
    for place, token in enumerate(tokens):
        result.append(token)
        if token == "\n" and place + 1 < len(tokens) and rng.random() < 0.2:
            result += [*random_remark(rng), "\n"]
    return result


def damaged_tokens(rng: Random, tokens: Tokens) -> Tokens:
    """The tokens with one of them gone, doubled, exchanged or put in."""
    tokens = list(tokens)
    place = rng.randrange(len(tokens))
    stranger = rng.choice(("(", ")", "\n", rng.choice(WORDS), rng.choice(WORDS), random_word(rng)))
    way = rng.randrange(6)
    if way == 0:
        del tokens[place]
    elif way == 1:
        tokens.insert(place, tokens[place])
    elif way == 2:
        other = min(place + 1, len(tokens) - 1)
        tokens[place], tokens[other] = tokens[other], tokens[place]
    elif way == 3:
        tokens[place] = stranger
    elif way == 4:
        tokens.insert(place, stranger)
    else:
        tokens.append(stranger)
    return tokens


def damaged_bytes(rng: Random, text: bytes) -> bytes:
    """The text cut short, or with a byte changed, put in or taken out, or with a word that is too long."""
    place = rng.randrange(len(text) + 1)
    stranger = bytes([rng.choice(BYTES_NOT_ALLOWED) if rng.random() < 0.6 else rng.randrange(256)])
    way = rng.randrange(5)
    if way == 0:
        return text[:place]
    if way == 1:
        return text[:place] + stranger + text[place + 1 :]
    if way == 2:
        return text[:place] + stranger + text[place:]
    if way == 3:
        return text[:place] + text[place + 1 :]
    return text[:place] + b"a" * rng.choice((16, 17, 18)) + rng.choice((b"", b"#", b" ")) + text[place:]


def damaged_sheet(rng: Random, test: Test) -> Tokens:
    """A sheet with a fault of its meaning or of its remarks."""
    way = rng.randrange(6)
    tokens = sheet_tokens(test)
    if way == 0:
        while len(test.elements) <= MOST_ELEMENTS:
            test.elements.insert(rng.randint(0, len(test.elements)), rng.choice(test.elements))
        return sheet_tokens(test)
    if way == 1:
        element = rng.choice(test.elements)
        while len(element.operations) <= MOST_OPERATIONS:
            element.operations.append(rng.choice(element.operations))
        return sheet_tokens(test)
    if way == 2:
        operations = [rng.choice(EVERY_OPERATION) for _ in range(rng.randint(1, 3))]
        test.elements.insert(rng.randint(0, len(test.elements)), Element("columns", operations))
        return sheet_tokens(test)
    if way == 3:
        place = rng.choice([i for i, token in enumerate(tokens) if token == "\n"]) + 1
        return tokens[:place] + nested_remark(rng.choice((8, 9, 10)), ["a"]) + ["\n"] + tokens[place:]
    if way == 4:
        rng.choice(test.elements).operations.clear()
        return sheet_tokens(test)
    return ["(", "test", "a", "\n", *random_remark(rng), "\n", ")", "\n"]


def damaged_array(rng: Random, plan: ArrayPlan) -> Tokens:
    """An array text with a fault of its meaning, of its numbers or of its remarks."""
    words, width = int(plan.words), int(plan.width)
    outside_word = str(rng.choice((words, words + 1, 255, 256, 257, 9999)))
    outside_column = str(rng.choice((width, width + 1, 64, 65, 9999)))
    place = rng.randint(0, len(plan.lines))
    way = rng.randrange(10)
    if way == 0:
        plan.words = rng.choice(("0", "00", "257", "9999", "300", "00256"))
    elif way == 1:
        plan.width = rng.choice(("0", "000", "65", "9999", "256", "00064"))
    elif way == 2:
        plan.lines.insert(place, ["mark", outside_word])
    elif way == 3:
        plan.lines.insert(place, ["cell", outside_word, rng.choice(("0", outside_column)), "sa0"])
    elif way == 4:
        plan.lines.insert(place, ["cell", "0", outside_column, rng.choice(("sa1", "wrong", "good"))])
    elif way == 5 and plan.lines:
        plan.lines.insert(place, rng.choice(plan.lines))
    elif way == 6:
        word, column = str(rng.randrange(words)), str(rng.randrange(width))
        for _ in range(2):
            line = ["cell", word, column, rng.choice(list(STORAGE_DEFECTS))]
            plan.lines.insert(rng.randint(0, len(plan.lines)), line)
    elif way == 7:
        plan.lines.insert(place, ["cell", "0", "0", "wrong", *(rng.choice(("0", "1", "2", "00", "01")) for _ in "ab")])
    elif way == 8:
        strange = (["cell", "0", "0", "good"], ["cell", "00000", "0", "sa0"], ["mark", "0", "0"])
        plan.lines.insert(place, rng.choice(strange))
    else:
        plan.lines.insert(place, nested_remark(rng.choice((8, 9)), ["0"])[1:-1])
    return plan.tokens()
