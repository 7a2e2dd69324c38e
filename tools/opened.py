#!/usr/bin/env python3
"""Writes the two modules Opened: one name each that unfolds all that a run is defined by, so that `unfolding opened` computes a run.

    crates/walk/specs/Opened.antt    the definition's run
    crates/link/specs/Opened.antt    the run of the model over words, and the reading of its table

Run from the top of the repository, then `rt fmt`: python3 tools/opened.py"""
import re

# Modules of walk with the files that each has its definitions from.
WALK = {name: [name] for name in ['Syntax', 'Judgment', 'State', 'Walk', 'Reader', 'Limits', 'Run']}
PARTS = ['Reference', 'Numbers', 'Intervals', 'Endpoints', 'Transforms', 'Contexts', 'Typing', 'Equality']
WALK['Walk'] = ['Walk/' + part for part in PARTS] + ['Walk']

# Modules of other crates that the model over words is defined in; of walk's the names that it takes over.
MODEL = [('ast', module) for module in ['Words', 'Cells', 'Index', 'Nodes']]
MODEL += [('producer', module) for module in ['Machine', 'Callees'] + PARTS[1:] + ['Heads', 'Calls']]
MODEL += [('link', module) for module in ['Asked', 'Table']]
TAKEN = {'Limits': 'size_on node size_interval size_term size_terms size_call', 'Run': 'scope_of'}


def unfoldable(crate, file):
    """The names that a file marks `unfoldable pub`, in their order."""
    with open('crates/%s/specs/%s.antt' % (crate, file), encoding='utf-8') as f:
        return re.findall(r'(?m)^ *unfoldable pub (\S+) :', f.read())


def write(crate, said, uses, names):
    lines = ['-- %s' % line for line in said] + uses
    lines += ['', 'unfoldable pub opened : Unit {0}', 'unfolding ' + ' '.join(names), 'opened = tt']
    with open('crates/%s/specs/Opened.antt' % crate, 'w', encoding='utf-8') as f:
        f.write('\n'.join(lines) + '\n')


def walk():
    uses = ['use Rattle.std.proofs.Math.Decide.{ℕ_discrete, dec_lt, dec_le}']
    opened = ['ℕ_discrete', 'dec_lt', 'dec_le']
    for module, files in WALK.items():
        names = [name for file in files for name in unfoldable('walk', file)]
        # The reader's sequencing has the name of the walk's.
        alias = {'◌>>=◌': '◌>>=ʳ◌'} if module == 'Reader' else {}
        used = ['%s as %s' % (name, alias[name]) if name in alias else name for name in names]
        uses.append('use Rattle.walk.specs.%s.{%s}' % (module, ', '.join(used)))
        opened += [alias.get(name, name) for name in names]
    said = ['Every definition of the run, opened at once: `unfolding opened` computes a run.', 'Written by tools/opened.py.']
    write('walk', said, uses, opened)


def link():
    uses, opened = [], []
    for crate, module in MODEL:
        alias = module if crate == 'link' else crate + '_' + module
        uses.append('use Rattle.%s.specs.%s as %s' % (crate, module, alias))
        opened += [alias + '.' + name for name in unfoldable(crate, module)]
    for module, names in TAKEN.items():
        uses.append('use Rattle.walk.specs.%s as walk_%s' % (module, module))
        opened += ['walk_%s.%s' % (module, name) for name in names.split()]
    said = ['Every definition of the run over words, opened at once: `unfolding opened` computes it. Written by tools/opened.py.']
    write('link', said, uses, opened)


walk()
link()
