#!/usr/bin/env python3
"""Plays runs with answers, rN.jsonl, through the program's library, and says where its words differ.

    tools/compare/answers.py LIBRARY FILE..      # LIBRARY: libexports.a, of `tools/library.sh` or of unproved.sh

A line of a file is a run as an object: table_words, cell_words, answer_words, run (hexadecimal), and what it answers: listing; results
and args where the file has them, the result word of each call and the argument words of each row; made, the first working word of each
row. The listing is written here from the words, by the table of the language (tools/language.py). Status 1 where something differs.
"""
import json
import os
import struct
import subprocess
import sys
import tempfile

HERE = os.path.dirname(os.path.abspath(__file__))
sys.path.insert(0, os.path.dirname(HERE))
from language import CALLS, CONTEXTS, INTERVALS, JUDGMENTS, RULES, TERMS  # noqa: E402

NODES = {k.byte: k for k in TERMS + INTERVALS + CONTEXTS}
PARTS = {j.name: j.parts for j in JUDGMENTS}
NO_ROW = 4294967295


def player(library, folder):
    """The command that plays a batch through the library."""
    out = os.path.join(folder, 'play')
    subprocess.run(['cc', '-O2', os.path.join(HERE, 'play.c'), library, '-o', out], check=True)
    return out


def batch(runs):
    return b''.join(struct.pack('<4I', r['table_words'], r['cell_words'], r['answer_words'], len(b)) + b
                    for r in runs for b in [bytes.fromhex(r['run'])])


class Left:
    """What a run left, from the words at a place of what the player wrote."""

    def __init__(self, words, at):
        self.number, self.place, calls, rows, cells = words[at:at + 5]
        at += 5
        self.rows = [words[at + i * 24:at + (i + 1) * 24] for i in range(rows)]
        at += rows * 24
        self.cells = [words[at + i * 8:at + (i + 1) * 8] for i in range(cells)]
        at += cells * 8
        self.answers = [words[at + i * 4:at + (i + 1) * 4] for i in range(calls)]
        self.end = at + calls * 4

    def quote(self, cell):
        kind = NODES[self.cells[cell][0]]
        shown = [str(w) if p.sort == 'number' else self.quote(w)
                 for p, w in zip(kind.parts, self.cells[cell][1:4]) if p.shown]
        return '(%s)' % ' '.join([kind.name] + shown) if kind.parts else kind.name

    def arguments(self, row):
        return list(row[13:13 + row[12]])

    def row_line(self, i, row):
        rule = RULES[row[0]]
        cited = ','.join(map(str, row[2:2 + row[1]])) or '-'
        shown = [str(w) if p.sort == 'number' else self.quote(w) for p, w in zip(PARTS[rule.judgment], self.arguments(row))]
        return '%d %s %s (%s)' % (i, rule.name, cited, ' '.join([rule.judgment] + shown))

    def call_line(self, i, code, answer):
        number, row, result, deepest = answer
        if number:
            return '%d %d - - %d' % (i, number, deepest)
        shown = {1: str, 2: self.quote, 4: self.quote, 7: self.quote}.get(code, lambda _: '-')
        return '%d 0 %d %s %d' % (i, row, shown(result), deepest)

    def listing(self, codes):
        if self.number:
            return 'number place\n%d %d\n' % (self.number, self.place)
        accepted = [(c, a[1]) for c, a in zip(codes, self.answers) if a[0] == 0]
        lines = ['call code row result deepest']
        lines += [self.call_line(i, c, a) for i, (c, a) in enumerate(zip(codes, self.answers))]
        lines += ['row rule refs judgment']
        lines += [self.row_line(i, row) for i, row in enumerate(self.rows)]
        lines += ['rows cells repeats', '%d %d %d' % (len(self.rows), len(self.cells), len(accepted) - len(set(accepted)))]
        return '\n'.join(lines) + '\n'


CHECK = next(c.code for c in CALLS if c.name == 'check')


def past_node(run, at):
    kind = NODES[run[at]]
    at += 1
    for p in kind.parts:
        at = at + 1 if p.sort == 'number' else past_node(run, at)
    return at


def codes_of(run):
    """The code of each call of a run that is read: a check for each of many types."""
    codes, at = [], 2
    while at < len(run):
        code, types = run[at], run[at + 2]
        at += 3
        for _ in range(types + len(CALLS[code].terms)):
            at = past_node(run, at)
        count = 0
        if CALLS[code].counted:
            count, at = run[at], at + 1
            for _ in range(count):
                at = past_node(run, at)
        codes += [CHECK] * count if 1 <= count <= 16 else [code]
    return codes


def differences(vector, left):
    codes = [] if left.number else codes_of(bytes.fromhex(vector['run']))
    got = {'listing': left.listing(codes),
           'results': [a[2] for a in left.answers],
           'args': [left.arguments(row) for row in left.rows],
           'made': [row[18] for row in left.rows]}
    for name, value in got.items():
        if name in vector and vector[name] != value:
            stored, here = (v.splitlines() if isinstance(v, str) else v for v in (vector[name], value))
            at = next((i for i, (a, b) in enumerate(zip(stored, here)) if a != b), min(len(stored), len(here)))
            yield '%s at %d: stored %s, here %s' % (name, at, stored[at:at + 1], here[at:at + 1])


def main():
    if len(sys.argv) < 3:
        sys.exit(__doc__)
    bad = 0
    with tempfile.TemporaryDirectory() as folder:
        command = player(sys.argv[1], folder)
        for path in sys.argv[2:]:
            with open(path) as f:
                vectors = [json.loads(line) for line in f]
            out = subprocess.run([command], input=batch(vectors), stdout=subprocess.PIPE, check=True).stdout
            words = struct.unpack('<%dI' % (len(out) // 4), out)
            at, rows, differ = 0, 0, 0
            for i, vector in enumerate(vectors):
                left = Left(words, at)
                at = left.end
                rows += len(left.rows)
                found = list(differences(vector, left))
                differ += bool(found)
                for what in found:
                    print('%s, line %d: %s' % (path, i + 1, what))
            bad += differ
            print('%s: %d runs, %d rows, %d differ' % (path, len(vectors), rows, differ))
    sys.exit(1 if bad else 0)


if __name__ == '__main__':
    main()
