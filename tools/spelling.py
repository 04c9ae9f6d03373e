#!/usr/bin/env python3
"""Spells the definitions and lemmas of this repository as today's Rattle does.

A definition, a lemma, a field or a constructor of specs/ and proofs/ is in snake case, a fact or another type in upper
camel case. In a clause, a ghost member stands behind its bound's parameter. Functions of src/ keep their names, and so
do the goals that rt names. usage: tools/spelling.py [--list]
in the top folder, once, after the port's own script. --list prints the names and changes nothing.
"""
import glob
import re
import sys

# names that would fall together with another name in scope keep apart by these
APART = {
    "bit-and": "bit-and",
    "bit-or": "bit-or",
    "bit-xor": "bit-xor",
    "chart-length": "chart_length_lem",
    "is-good": "is_good_lem",
    "same-cell": "same_cell_lem",
    "says-stuck": "says_stuck_lem",
    "says-wrong": "says_wrong_lem",
    "wrong-pairs": "wrong_pairs_lem",
}

# names that an import gives to another crate's definition
IMPORTED_AS = {"Chart-in": "ChartIn", "Line-defect": "LineDefect", "outcomesOf": "outcomes_of", "tenthsOf": "tenths_of"}

STOPS = r"\s(){}\[\],.;`"


def new_name(name):
    if name in APART:
        return APART[name]
    if name[0].isupper():
        return "".join(part[0].upper() + part[1:] for part in name.split("-") if part)
    if re.search(r"[^A-Za-z0-9'_-]", name):
        return name
    name = re.sub(r"(?<=[a-z0-9])([A-Z])", lambda m: "_" + m.group(1).lower(), name)
    return name.replace("-", "_")


def declared(path):
    """The names that a file declares: (top-level names but goals, fields and constructors)."""
    tops, fields = set(), set()
    inside = False
    for line in open(path, encoding="utf-8"):
        top = re.match(r"(?:pub |abbrev |unfoldable |record |data )*([^\s:(){}.,;=]+)\s+(?=[:({])(.*)", line)
        if re.match(r"\s*(use|pub use|pub mod|mod|--|unfolding)\b", line):
            continue
        if top and not line[0].isspace():
            if not re.search(r":\s*goal\.", line):
                tops.add(top.group(1))
            inside = bool(re.match(r"(?:pub |abbrev |unfoldable )*(record|data) ", line))
            continue
        field = re.match(r"\s+(?:pub )?([^\s:(){}.,;=]+)\s*:", line)
        # within modules with parameters the declarations stand further in
        nested = re.match(r"\s+(?:pub |abbrev |unfoldable |record |data )*([^\s:(){}.,;=]+)\s*:(\s|$)", line)
        if field and inside:
            fields.add(field.group(1))
        elif nested and not inside:
            tops.add(nested.group(1))
            fields.add(nested.group(1))
        elif line.strip() and not line[0].isspace():
            inside = False
    return tops, fields


def is_goals(path):
    return re.search(r"/(Answers|Invariants|Proof)\.antt$", path) is not None


def swap(text, names, fields):
    """Respells the names in a text of clauses, specs or proofs."""
    if not names:
        return text
    words = sorted(names, key=len, reverse=True)
    pattern = re.compile(rf"(?<![^{STOPS}])(" + "|".join(map(re.escape, words)) + rf")(?![^{STOPS}])")

    def one(match):
        word = match.group(1)
        before = text[match.start() - 1] if match.start() else " "
        # behind a module's name stands a definition, behind a value one of its fields
        of_module = re.search(r"[A-Z][A-Za-z0-9]*\.$", text[: match.start()][-40:])
        if before == "." and word not in fields and not of_module:
            return word
        return names[word]

    return pattern.sub(one, text)


def with_bounds(text):
    """Clauses name a ghost member by its bound: C.build x for build x, and the test < of numbers as Rust does."""
    lines = text.split("\n")
    for at, line in enumerate(lines):
        if re.match(r"\s*(ensures|requires) ", line):
            line = re.sub(r"(?<![\w.])(build|state|meaning)(?= [a-z])", r"C.\1", line)
            lines[at] = re.sub(r"(?<![\w.])ltb(?= )", "nat_lt", line)
    return "\n".join(lines)


def main():
    antt = sorted(glob.glob("crates/*/specs/**/*.antt", recursive=True) + glob.glob("crates/*/proofs/**/*.antt", recursive=True))
    code = sorted(glob.glob("crates/*/src/**/*.rt", recursive=True))
    edits = sorted(glob.glob("crates/*/must-fail/*.edit") + glob.glob("refused/*.edit"))
    pages = sorted(glob.glob("docs/*.md") + ["README.md"])
    names, fields, local = {}, set(), {}
    for path in antt:
        tops, own_fields = declared(path)
        changed = {n: new_name(n) for n in tops | own_fields if new_name(n) != n}
        if is_goals(path):
            local[path] = changed
            continue
        names.update(changed)
        fields |= {n for n in own_fields if new_name(n) != n}
    names.update(IMPORTED_AS)
    if "--list" in sys.argv:
        for old in sorted(names):
            print(old, names[old])
        return
    for path in antt + code + edits:
        old = open(path, encoding="utf-8").read()
        table = {**names, **local.get(path, {})}
        if is_goals(path):
            # the goals' own names stand in lines 'pub NAME : goal.NAME' and 'NAME c ='
            goals = set(re.findall(r":\s*goal\.([^\s]+)", old))
            table = {n: v for n, v in table.items() if n not in goals}
        new = swap(old, table, fields)
        if path in code and not re.search(r"^pub trait ", old, re.M):
            new = with_bounds(new)
        if new != old:
            open(path, "w", encoding="utf-8").write(new)
    for path in pages:
        old = open(path, encoding="utf-8").read()
        new = re.sub(r"`([^`\n]+)`", lambda m: "`" + swap(m.group(1), names, fields | set(names)) + "`", old)
        if new != old:
            open(path, "w", encoding="utf-8").write(new)


if __name__ == "__main__":
    main()
