"""What the program judge prints for an array text.

    python3 reference/judge.py < TEXT
"""

from __future__ import annotations

import sys

from array_texts import read_array
from bench import Bench, FindingKind
from charts import operations_of_a_chart
from march import operations_of_a_run
from refusals import Refusal


def judge(text: bytes) -> list[str]:
    """The printed lines."""
    try:
        array = read_array(text)
    except Refusal as refusal:
        return [refusal.line()]
    words, width = array.words(), array.width()
    bench = Bench(array)
    found = bench.run_whole()
    verdict = "sound" if found.kind is FindingKind.SOUND else "faulty"
    buffer = bytearray(words * width)
    charted = bench.chart(buffer)
    lines = [
        f"array {words} {width}",
        f"run {operations_of_a_run(words, width)} misses {found.count} {verdict}",
        f"chart {operations_of_a_chart(words, width)} cells {charted.count}",
    ]
    for place, byte in enumerate(buffer):
        if byte > 0:
            lines.append(f"cell {place // width} {place % width} {byte}")
    return lines


def main() -> int:
    lines = judge(sys.stdin.buffer.read())
    print("\n".join(lines))
    return 1 if lines[0].startswith("refused") else 0


if __name__ == "__main__":
    sys.exit(main())
