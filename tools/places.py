#!/usr/bin/env python3
"""Counts places of the code that an older form of the language may have left. docs/DESIGN-PASS.md says what each
point means. Usage: tools/places.py [POINT] [FOLDER]: without a point the counts of all, with one each place of it."""
import collections
import glob
import os
import re
import sys

# parameters that are plain values, and can travel together
VALUE = r'u8|u16|u32|u64|usize|bool|&\[u8|WordIndex|ColumnIndex|CellIndex|Size|Pair|Position|TransistorFault'
KEYWORDS = set('as break const continue crate else enum fn for if impl in let loop match mod move mut pub ref return self '
               'Self static struct trait true false type use where while Ok Err Some None'.split())


def source(folder):
    for path in sorted(glob.glob(os.path.join(folder, 'crates/*/src/*.rt'))):
        with open(path, encoding='utf-8') as f:
            yield os.path.relpath(path, folder), f.read().split('\n')


class Function:
    """A function: where it stands, its name, its parameters, its clauses and its body."""

    def __init__(self, path, line, name, head, clauses, body):
        self.path, self.line, self.name = path, line, name
        self.head, self.clauses, self.body = head, clauses, body

    def place(self):
        return f'{self.path}:{self.line} {self.name}'


def functions(folder):
    for path, lines in source(folder):
        at = 0
        while at < len(lines):
            found = re.match(r'( *)(pub(\(crate\))? )?fn (\w+)', lines[at])
            if not found:
                at += 1
                continue
            indent, name, first = found.group(1), found.group(4), at
            head, clauses = [], []
            while True:
                line = lines[at]
                if re.match(r'\s*(requires|ensures) ', line):
                    clauses.append(line.strip().rstrip(';'))
                elif line.rstrip() != indent + '{':
                    head.append(line.strip())
                if line.rstrip().endswith(';') or line.rstrip() == indent + '{' or (
                        line.rstrip().endswith(' {') and not re.match(r'\s*(requires|ensures) ', line)):
                    break
                if line.rstrip().endswith(' }') and not re.match(r'\s*(requires|ensures) ', line):
                    break
                at += 1
            at += 1
            body = []
            if not lines[at - 1].rstrip().endswith(';'):
                while at < len(lines) and lines[at] != indent + '}':
                    body.append(lines[at])
                    at += 1
            yield Function(path, first + 1, name, ' '.join(head), clauses, body)


def matching(folder, *patterns):
    for path, lines in source(folder):
        for number, line in enumerate(lines, 1):
            if line.lstrip().startswith('//'):
                continue
            if any(re.search(p, line) for p in patterns):
                yield f'{path}:{number} {line.strip()}'


def blocks(folder, kind):
    """Structs or enums, with the lines of their fields or cases."""
    for path, lines in source(folder):
        for number, line in enumerate(lines):
            found = re.match(r'(pub(\(crate\))? )?' + kind + r' (\w+)', line)
            if found and line.endswith('{'):
                rows = []
                for row in lines[number + 1:]:
                    if row == '}':
                        break
                    if row.strip() and not row.strip().startswith('//') and re.match(r'    \S', row):
                        rows.append(row.strip())
                yield path, number + 1, found.group(3), rows


def point1(folder):
    yield from matching(folder, r'Err\([^=]*\) => (return )?Err\(', r'\bNone => None', r'return Err\(fault\);',
                        r'\bErr\(_\) => (return )?(Err|false)', r'match \w+\.number\(\)')
    for path, line, name, rows in blocks(folder, 'enum'):
        cases = [r for r in rows if re.match(r'[A-Z]', r)]
        if len(cases) == 2 or any(re.match(r'(Good|Nothing|None|Open|New)\b', c) for c in cases):
            yield f'{path}:{line} enum {name}'
    for path, line, name, rows in blocks(folder, 'struct'):
        kinds = [r.split(': ', 1)[1].rstrip(',') for r in rows if ': ' in r and not r.startswith('ghost')]
        if 'bool' in kinds and set(kinds) != {'bool'}:
            yield f'{path}:{line} struct {name}, a flag among other fields'


def shape(body):
    text = ' '.join(row for row in body if not row.strip().startswith('//'))
    words = re.findall(r'b?"[^"]*"|\w+|[^\w\s]', text)
    return tuple('0' if re.match(r'\d|b?"', w) else w if w in KEYWORDS or not re.match(r'\w', w) else 'x' for w in words)


def point2(folder):
    groups = collections.defaultdict(list)
    for f in functions(folder):
        words = shape(f.body)
        if len(words) >= 24:
            groups[words].append(f.place())
    for path, line, name, rows in blocks(folder, 'struct'):
        kinds = tuple(sorted(r.split(': ', 1)[1] for r in rows if ': ' in r and not r.startswith('ghost')))
        names = [r.split(': ', 1)[0].split()[-1] for r in rows if ': ' in r and not r.startswith('ghost')]
        if 'to' in names or 'records' in names and len(names) == 2:
            groups['a value and the place after it, or the records'].append(f'{path}:{line} struct {name}')
        elif len(kinds) >= 2:
            groups[kinds].append(f'{path}:{line} struct {name}')
    for members in groups.values():
        if len(members) > 1:
            for member in members:
                yield f'{member}, one of {len(members)}: {members[0]} ..'


def point3(folder):
    for path, lines in source(folder):
        for number, line in enumerate(lines):
            if re.match(r'\s*while (?!let)', line):
                yield f'{path}:{number + 1} {line.strip()}'
            if re.match(r'\s*\w+ \+= 1;', line) and 'self.' not in line:
                yield f'{path}:{number + 1} {line.strip()}'
            found = re.match(r'(\s*)(?:\'\w+: )?for (\w+) in .*\.\.', line)
            if found:
                inside = []
                for row in lines[number + 1:]:
                    if row == found.group(1) + '}':
                        break
                    inside.append(row)
                text, name = '\n'.join(inside), found.group(2)
                if re.search(r'\[[^\]]*\b' + name + r'\b|get\(' + name + r'\b|\boperation\(' + name + r'\b|place = .*\b' + name + r'\b|place = start', text):
                    yield f'{path}:{number + 1} {line.strip()}'


def point4(folder):
    for f in functions(folder):
        text = '\n'.join(f.body)
        arms = re.findall(r'=> (?:\{ )?((?:Ok\(|Some\(|return )*)([^\n{]*?)\)*,?$', text, re.M)
        if re.match(r'\s*match ', text) and len(arms) >= 2 and all(
                re.match(r"(\d+|true|false|\w+::\w+(\(\w+(::\w+)?\))?|Err\(.*|anyhow!.*|b?\"[^\"]*\")\)*$", a[1]) for a in arms):
            yield f.place()
        elif re.search(r'\b(refused|refusal|clone|eq|cmp)\b', f.name):
            yield f.place()


def point5(folder):
    clauses = collections.defaultdict(list)
    pairs = collections.defaultdict(set)
    for f in functions(folder):
        for clause in set(re.sub(r'^(requires|ensures) \w+ ', r'\1 ', c) for c in f.clauses):
            clauses[clause].append(f.place())
        names = re.findall(r'(\w+): (' + VALUE + r')\b', f.head)
        for i, a in enumerate(names):
            for b in names[i + 1:]:
                pairs[(a, b)].add(f.place())
    for clause, members in sorted(clauses.items()):
        if len(members) >= 3:
            yield f'{len(members)} times {clause}'
    for (a, b), members in sorted(pairs.items()):
        if len(members) >= 3:
            yield f'{len(members)} times ({a[0]}: {a[1]}, {b[0]}: {b[1]})'


def point6(folder):
    for path, line, name, rows in blocks(folder, 'struct'):
        text = '\n'.join(r for r in rows if not r.startswith('ghost'))
        if re.search(r': (\[|&\'?\w* ?(mut )?\[|Vec)', text) and re.search(r': (u8|u16|u32|usize)\b', text):
            yield f'{path}:{line} struct {name}'
    for f in functions(folder):
        if re.search(r': &(mut )?\[u8\]', f.head) and re.search(r'\b(at|from|to|start): usize', f.head):
            yield f.place()


def point7(folder):
    for f in functions(folder):
        text = '\n'.join(f.body)
        arms = re.findall(r'^ {4,8}(?:\S.*)? => (.*)', text, re.M)
        calls = [a for a in arms if re.match(r'[\w.]+\(', a) and not re.match(r'(Ok|Some|Err)\(', a)]
        if re.search(r'\bmatch ', text) and len(calls) >= 3:
            yield f.place()


def point8(folder):
    for path in sorted(glob.glob(os.path.join(folder, 'crates/*/proofs/**/Answers.antt'), recursive=True)):
        with open(path, encoding='utf-8') as f:
            yield f'{os.path.relpath(path, folder)} {len(f.read().splitlines())} lines'


POINTS = {'1': point1, '2': point2, '3': point3, '4': point4, '5': point5, '6': point6, '7': point7, '8': point8}


def main(words):
    point = words.pop(0) if words and words[0] in POINTS else None
    folder = words[0] if words else '.'
    if point:
        for row in POINTS[point](folder):
            print(row)
    else:
        for name, find in POINTS.items():
            print(name, len(list(find(folder))))


main(sys.argv[1:])
