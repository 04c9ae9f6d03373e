"""Compare a program with this reference on fresh random cases.

    python3 reference/fresh.py [--seed S] [--count N] [--kinds K ..] -- COMMAND [ARGUMENT ..]

The command gets the cases on its standard input and is to print the answers. Without a seed the cases are new each
time; the seed is printed, so that a difference can be had again.
"""

from __future__ import annotations

import argparse
import secrets
import subprocess
import sys

from answers import answer
from cases import all_cases
from case_format import Case, PAYLOADS


def first_difference(expected: list[bytes], printed: bytes) -> int | None:
    """The number of the first case whose answer differs."""
    at = 0
    for number, text in enumerate(expected):
        if printed[at : at + len(text)] != text:
            return number
        at += len(text)
    return None


def answer_at(expected: list[bytes], number: int, printed: bytes) -> bytes:
    """What was printed in the place of a case's answer, as many lines as it should have had."""
    rest = printed[sum(map(len, expected[:number])) :]
    return b"".join(rest.splitlines(keepends=True)[: expected[number].count(b"\n")])


def tell(number: int, case: Case, expected: bytes, printed: bytes) -> None:
    out = sys.stdout.buffer
    out.write(b"case %d differs:\n%s" % (number, case.to_bytes()))
    out.write(b"expected:\n%s" % expected)
    out.write(b"printed:\n%s\n" % printed)


def main() -> int:
    parser = argparse.ArgumentParser(description="Compare a program with the reference on fresh random cases.")
    parser.add_argument("--seed", type=int, default=None)
    parser.add_argument("--count", type=int, default=1000)
    parser.add_argument("--kinds", nargs="*", default=list(PAYLOADS))
    parser.add_argument("command", nargs="+")
    options = parser.parse_args()
    seed = secrets.randbelow(10**9) if options.seed is None else options.seed
    cases = [case for case in all_cases(seed, options.count) if case.kind in options.kinds]
    expected = [answer(case) for case in cases]
    given = b"".join(case.to_bytes() for case in cases)
    done = subprocess.run(options.command, input=given, stdout=subprocess.PIPE, check=False)
    print(f"seed {seed}, {len(cases)} cases, exit status {done.returncode}", flush=True)
    number = first_difference(expected, done.stdout)
    if number is not None:
        tell(number, cases[number], expected[number], answer_at(expected, number, done.stdout))
        return 1
    if len(done.stdout) != sum(map(len, expected)):
        print("all answers agree, but more was printed after them")
        return 1
    print("all answers agree")
    return 0


if __name__ == "__main__":
    sys.exit(main())
