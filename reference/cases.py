"""Cases for a program that is to be compared with this reference.

    python3 reference/cases.py --seed S --count N > CASES

prints the cases that are always the same (worked examples, limits, published dictionaries) and N random ones.
"""

from __future__ import annotations

import argparse
import sys
from typing import Iterator

from case_format import Case
from fixed_cases import fixed_cases
from random_cases import random_cases

DEFAULT_SEED = 1
DEFAULT_COUNT = 3000


def all_cases(seed: int = DEFAULT_SEED, count: int = DEFAULT_COUNT) -> Iterator[Case]:
    yield from fixed_cases()
    yield from random_cases(seed, count)


def main() -> None:
    parser = argparse.ArgumentParser(description="Print cases for the product and for answers.py.")
    parser.add_argument("--seed", type=int, default=DEFAULT_SEED)
    parser.add_argument("--count", type=int, default=DEFAULT_COUNT, help="random cases besides the fixed ones")
    parser.add_argument("--kinds", nargs="*", default=None, help="only cases of these kinds")
    options = parser.parse_args()
    for case in all_cases(options.seed, options.count):
        if options.kinds is None or case.kind in options.kinds:
            sys.stdout.buffer.write(case.to_bytes())


if __name__ == "__main__":
    main()
