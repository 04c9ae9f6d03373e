"""Random cases of each kind."""

from __future__ import annotations

from random import Random
from typing import Callable, Iterator

from answers import bench_call
from array_texts import read_array
from bench import Bench
from case_format import Case
from case_makers import (
    MLT1_SHEET,
    MOST_SHEET,
    bench_case,
    campaign_case,
    cells_case,
    judge_case,
    sheet_case,
    standing_calls,
    trial_case,
    writer_case,
)
from march import COMPARES, EVERY_OPERATION, MLT1, ORDERS, Test, operations_of_a_run
from refusals import Refusal
from sheets import read_sheet, sheet_of
from texts_at_random import (
    damaged_array,
    damaged_bytes,
    damaged_sheet,
    damaged_tokens,
    lay_out,
    lay_out_loosely,
    random_array,
    random_fitting_test,
    random_size,
    random_test,
    random_word,
    sheet_tokens,
    with_remarks,
)


def random_text(rng: Random, tokens: list[str]) -> bytes:
    tokens = with_remarks(rng, tokens) if rng.random() < 0.3 else tokens
    text = lay_out(tokens) if rng.random() < 0.6 else lay_out_loosely(rng, tokens)
    return text.encode("ascii")


def random_damage(rng: Random, tokens: list[str]) -> bytes:
    """Tokens as a text with one damage, sometimes with two."""
    if rng.random() < 0.5:
        tokens = damaged_tokens(rng, tokens)
        text = random_text(rng, tokens)
        return damaged_bytes(rng, text) if rng.random() < 0.2 else text
    return damaged_bytes(rng, random_text(rng, tokens))


def random_judge(rng: Random) -> Case:
    plan = random_array(rng, *random_size(rng))
    way = rng.random()
    if way < 0.4:
        return judge_case(random_text(rng, plan.tokens()))
    if way < 0.7:
        tokens = damaged_array(rng, plan)
        return judge_case(random_text(rng, tokens) if rng.random() < 0.8 else random_damage(rng, tokens))
    return judge_case(random_damage(rng, plan.tokens()))


def random_sheet(rng: Random) -> Case:
    test = random_test(rng, 5 if rng.random() < 0.9 else 16)
    way = rng.random()
    if way < 0.35:
        fits = len(sheet_of(test))
        room = MOST_SHEET if rng.random() < 0.7 else fits + rng.choice((-fits, -7, -1, 0, 1))
        return sheet_case(random_text(rng, sheet_tokens(test)), max(room, 0))
    if way < 0.6:
        tokens = damaged_sheet(rng, test)
        return sheet_case(random_text(rng, tokens) if rng.random() < 0.8 else random_damage(rng, tokens))
    return sheet_case(random_damage(rng, sheet_tokens(test)))


def random_writer(rng: Random) -> Case:
    calls = []
    for _ in range(rng.choice((0, 0, 1))):
        calls.append("begin " + rng.choice(("", "a b", "A", "q" * 17, "a-", "a(")))
    calls.append("begin " + random_word(rng))
    for _ in range(rng.choice((0, 1, 2, 3, 3, 18))):
        order = rng.choice(ORDERS)
        operations = []
        for _ in range(rng.choice((1, 1, 2, 3, 10))):
            operations.append(rng.choice(COMPARES if rng.random() < 0.7 else EVERY_OPERATION).text()[1:-1])
        # An element has to be open, and then not empty, whatever was refused: a compare always helps.
        calls += [f"open {order}", *(["close"] if rng.random() < 0.1 else []), *operations, "c 1 hit", "close"]
        calls += ["end"] if rng.random() < 0.02 else []
    calls.append("end")
    _, needed = standing_calls(MOST_SHEET, calls)
    room = rng.choice((needed, needed, needed + 3, needed - 1, rng.randint(0, needed), needed + 40))
    return writer_case(max(room, 0), *calls)


def random_bench_call(rng: Random, bench: Bench, words: int, width: int) -> str:
    """A call that suits where the bench stands, mostly."""
    top = 2**width - 1
    word = rng.randrange(words) if rng.random() < 0.93 else rng.choice((words, words + 1, 256, 65535))
    pattern = rng.choice((0, top, rng.randint(0, top), rng.randint(0, top), min(top + 1, 2**64 - 1)))
    mask = rng.choice((0, 0, 0, top, rng.randint(0, top), rng.randint(0, top)))
    mask = mask if rng.random() < 0.95 else min(top + 1 + rng.randint(0, 3), 2**64 - 1)
    ticket = max(bench.starts, 1) if rng.random() < 0.85 else rng.randint(1, bench.starts + 2)
    left = operations_of_a_run(words, width) - bench.place()
    steps = rng.choice((0, 1, 2, rng.randint(0, left + 2), left, left, left + 1, 4294967295))
    write = f"w {word} {pattern} {mask}"
    by_hand = (write, write, f"r {word}", f"c {pattern} {mask}", f"e {word}")
    cells = words * width
    chart = f"chart {rng.choice((cells, cells, cells + 1, cells + 4, max(cells - 1, 0), 0))}"
    runs = (f"step {ticket} {steps}", f"step {ticket} {steps}", f"close {ticket}", f"quit {ticket}")
    if bench.run is None:
        return rng.choice((*by_hand, *by_hand, "start", "start", "start", "whole", chart, "finding", rng.choice(runs)))
    return rng.choice((*runs, *runs[:3], *runs[:3], rng.choice((*by_hand, "start", "whole", chart, "finding"))))


def random_bench(rng: Random) -> Case:
    words, width = random_size(rng)
    text = random_text(rng, random_array(rng, words, width).tokens())
    bench = Bench(read_array(text))
    calls = []
    for _ in range(rng.choice((3, 8, 15, 25))):
        call = random_bench_call(rng, bench, words, width)
        calls.append(call)
        name, *numbers = call.split(" ")
        try:
            bench_call(bench, name, [int(number) for number in numbers])
        except Refusal:
            pass
    return bench_case(text, *calls)


def random_trial(rng: Random) -> Case:
    words, width = random_size(rng)
    way = rng.random()
    test = random_fitting_test(rng, words, width) if way < 0.5 else random_test(rng) if way < 0.85 else MLT1
    array = random_text(rng, random_array(rng, words, width).tokens())
    more_room = rng.choice((0, 0, 0, 0, 1, 4, -1, -100))
    return trial_case(random_text(rng, sheet_tokens(test)), array, more_room, rng.choice((1, 1, 2, 3)))


def random_campaign(rng: Random) -> Case:
    words, width = rng.randint(1, 4), rng.randint(1, 4)
    way = rng.random()
    if way < 0.5:
        test = random_fitting_test(rng, words, width)
    else:
        test = random_test(rng, 4) if way < 0.65 else MLT1 if way < 0.75 else changed_mlt1(rng)
    if rng.random() < 0.15:
        words, width = rng.choice(((0, 1), (17, 2), (2, 17), (1, 0), (16, 1), (1, 16), (255, 64)))
    return campaign_case(sheet_of(test), words, width, max(words + rng.choice((0, 0, 0, 0, 1, -1)), 0))


def changed_mlt1(rng: Random) -> Test:
    """MLT-1 with an element left out or one operation exchanged."""
    test = read_sheet(MLT1_SHEET)
    if rng.random() < 0.5:
        del test.elements[rng.randrange(len(test.elements))]
        return test
    element = rng.choice(test.elements)
    new = rng.choice(COMPARES if element.order == "columns" else EVERY_OPERATION)
    element.operations[rng.randrange(len(element.operations))] = new
    return test


def random_cells(rng: Random) -> Case:
    words, width = random_size(rng)
    kind = rng.randrange(2)
    count = words * width + rng.choice((0, 0, 0, 1, 3))
    if rng.random() < 0.04:
        count = max(words * width - 1, 0)
    faulty = rng.choice((0.0, 0.1, 0.3, 1.0))
    cells: list[tuple[int, ...]] = []
    for _ in range(count):
        bad = rng.random() < faulty
        if kind == 0:
            cells.append((rng.randrange(2), rng.randrange(5) * bad, rng.randrange(16) * bad))
        else:
            states = [rng.randrange(3) if bad and rng.random() < 0.4 else 0 for _ in range(4)]
            cells.append((rng.randrange(2), rng.randrange(3) if bad and rng.random() < 0.4 else 0, *states))
    marks = tuple(rng.randint(0, words) for _ in range(rng.choice((0, 0, 0, 1, 2, 3))))
    return cells_case(kind, words, width, cells, marks)


RANDOM_KINDS: tuple[tuple[Callable[[Random], Case], int], ...] = (
    (random_judge, 30),
    (random_sheet, 30),
    (random_writer, 5),
    (random_bench, 12),
    (random_trial, 10),
    (random_campaign, 4),
    (random_cells, 10),
)


def random_cases(seed: int, count: int) -> Iterator[Case]:
    rng = Random(seed)
    makers = [maker for maker, share in RANDOM_KINDS for _ in range(share)]
    for _ in range(count):
        yield rng.choice(makers)(rng)
