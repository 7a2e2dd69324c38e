#!/usr/bin/env python3
"""Brings the repository's own names to the spelling of today's Rattle: words in snake case, types in upper camel case.

    python3 tools/spelling.py            once, at the top, right after the kit's port.py; prints the names that fall together

Own names are what the files of specs/ and the lemma files of proofs/ define or bind. A dash or a middle dot in such a name becomes `_`; in a
type's name (one that is declared by data or record, whose signature ends in Type, or that renames a type) the parts are joined in camel
case. A name that begins with a type and is no type keeps its dash after it, as Key-discrete. Functions of src/, constructors that go by the
Rust, strings, comments, inputs and outputs keep theirs, and so does what a file takes from the library."""
import glob
import os
import re
import sys
from collections import defaultdict

PART = r"[^\s(){}\[\],;.:λ|\"`@!◌]"
NAME = re.compile(r"(?<!%s)(?=%s*[-·])%s+(?!%s)" % (PART, PART, PART, PART))
HEAD = re.compile(r"^ *(?:\| *)?((?:(?:pub|abbrev|unfoldable|data|record|ruleset)\s+)*)([^\s(){}:;,=]+(?: +[^\s(){}:;,=]+)*)\s*(?:[({].*)?:(?:\s(.*))?$")
LIBRARY = re.compile(r'use (?:Rattle\.(?:std|core)|lib|native|borrow|Prim|mathlib)[\w.]*\.\{([^}]*)\}')


def snake(name):
    return re.sub(r'[-·]', '_', name)


def camel(name):
    parts = re.split(r'[-·]', name)
    return parts[0] + ''.join(p[:1].upper() + p[1:] for p in parts[1:])


def respelled(name, is_type):
    if not re.search(r'\w[-·]\w', name):
        return name
    if not name[0].isupper():
        return snake(name)
    return camel(name) if is_type else name


def code(line, mark):
    "the line's parts in turn: code, then a string or a comment, and so on"
    return re.split(r'(%s.*$|b?"(?:[^"\\]|\\.)*")' % mark, line)


def bare(text):
    return re.sub(r'--.*|"(?:[^"\\\n]|\\.)*"', '', text)


def of_library(text):
    "the names that a file takes from the library: they stay"
    out = set()
    for m in LIBRARY.finditer(text):
        out |= {x.split(' as ')[0].strip() for x in m.group(1).split(',')}
    return out


def defined(text):
    "name -> whether it is a type, of each own name that a file defines"
    out = {}
    lines = bare(text).split('\n')
    for i, line in enumerate(lines):
        m = HEAD.match(line)
        if m:
            rest, j = m.group(3) or '', i + 1
            while j < len(lines) and lines[j].startswith('    ') and not HEAD.match(lines[j]) and '=' not in lines[j]:
                rest += lines[j]
                j += 1
            is_type = bool(re.search(r'\b(data|record)\b', m.group(1))) or bool(re.search(r'Type( \d+)?\s*(where)?\s*$', rest))
            for name in m.group(2).split():
                for part in [p for p in name.split('◌') if p]:
                    out[part] = out.get(part, False) or is_type
        for m in re.finditer(r'\bderiving \w+ as (\S+)|^ *(?:pub )?ruleset (\S+)', line):
            out.setdefault(m.group(1) or m.group(2), False)
        for m in re.finditer(r' as ([^\s,}.]+)', line):
            out[m.group(1)] = out.get(m.group(1), False) or m.group(1)[0].isupper()
    return out


def specs():
    return sorted(glob.glob('crates/*/specs/**/*.antt', recursive=True) + glob.glob('crates/*/proofs/*.antt'))


def table():
    "old -> new, and all own names"
    own = defaultdict(bool)
    for path in specs():
        text = open(path, encoding='utf-8').read()
        for name, is_type in defined(text).items():
            own[name] |= is_type
        kept = of_library(text)
        for line in bare(text).split('\n'):
            for m in NAME.finditer(line):
                if m.group() not in kept and not m.group()[0].isupper():
                    own[m.group()] |= False
    return {n: respelled(n, t) for n, t in own.items() if respelled(n, t) != n}, own


def spelled(line, names, kept=(), mark='--'):
    "a line with the names turned, but for those that are kept, and outside of strings and comments"
    def one(m):
        return names.get(m.group(), m.group()) if m.group() not in kept else m.group()
    return ''.join(part if i % 2 else NAME.sub(one, part) for i, part in enumerate(code(line, mark)))


def turn(path, names, mark):
    old = open(path, encoding='utf-8').read()
    kept = of_library(old)
    new = '\n'.join(spelled(line, names, kept, mark) for line in old.split('\n'))
    if new != old:
        open(path, 'w', encoding='utf-8').write(new)
    return new != old


def main():
    os.chdir(os.path.join(os.path.dirname(os.path.abspath(__file__)), '..'))
    names, own = table()
    together = defaultdict(set)
    for name in own:
        together[names.get(name, name)].add(name)
    for name, olds in sorted(together.items()):
        if len(olds) > 1:
            print('fall together: %s from %s' % (name, ', '.join(sorted(olds))))
    count = 0
    for path in sorted(glob.glob('crates/*/specs/**/*.antt', recursive=True) + glob.glob('crates/*/proofs/**/*.antt', recursive=True)):
        count += turn(path, names, '--')
    for path in sorted(glob.glob('crates/*/src/**/*.rt', recursive=True)):
        count += turn(path, names, '//')
    print('%d names, %d files' % (len(names), count))


if __name__ == '__main__':
    sys.exit(main())
