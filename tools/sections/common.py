"""What the sections share: how they are registered, names of the kinds in each crate, and a few ways to lay out a list."""
import re
import sys

from language import AHEAD_REFUSALS, AHEAD_RULES, AHEAD_TERMS  # noqa: F401
from language import CALLS, CONTEXTS, COUNTS, INFERENCE, INTERVALS, JUDGMENTS, LIMITS, REFUSALS, RULES, RUN_REFUSALS, TERMS  # noqa: F401

ALL = TERMS + INTERVALS + CONTEXTS
NOTE = 'Written by tools/written.py from tools/language.py; `python3 tools/written.py` makes it again.'

files = {}     # path -> what gives the whole file
sections = {}  # path -> name -> what gives the section's lines


def whole(path):
    def register(f):
        files[path] = f
    return register


def section(path, name):
    def register(f):
        sections.setdefault(path, {})[name] = f
        return f
    return register


def named(name, what):
    """A section's name: `an %s that fits` of a term is `a term that fits`."""
    return (name % what).replace('an ' + what, ('an ' if what[0] in 'aeiou' else 'a ') + what)


def for_both(path, name, line, terms='term'):
    """A section for intervals and one for terms, a line or more for each kind: line(kind, the group's name)."""
    for group, kinds in (('interval', INTERVALS), (terms, TERMS)):
        section(path, named(name, group))(lambda group=group, kinds=kinds: [out for k in kinds for out in line(k, group).split('\n')])


def well_formed():
    """The table's own sense: numbers in order, names that fit a listing's column, judgments that are there."""
    names = [j.name for j in JUDGMENTS]
    for place, rule in enumerate(RULES + AHEAD_RULES):
        if rule.number != place or rule.judgment not in names or len(rule.name) > 16:
            sys.exit('tools/language.py: rule %d, %s: its number, its judgment or its length' % (place, rule.name))
    kinds = TERMS + AHEAD_TERMS + INTERVALS + CONTEXTS
    bytes_ = [k.byte for k in kinds]
    if bytes_ != sorted(set(bytes_)) or any(len(k.parts) > 3 for k in kinds) or any(len(j.parts) > 5 for j in JUDGMENTS):
        sys.exit('tools/language.py: kinds in the order of their bytes, with at most three parts; judgments with at most five')


# ---- refusals

def refusals():
    """Four groups, each with what it is of, and for each number its name and what it says."""
    runs = {}
    for r in RUN_REFUSALS:
        runs.setdefault((r.number, r.name), []).append(r.because)
    return [
        ('of a run', [(number, name, '; or '.join(because)) for (number, name), because in runs.items()]),
        ('of a call, before it is walked', [tuple(r) for r in LIMITS]),
        ('of a call, where the walk stops', [tuple(r) for r in REFUSALS]),
        ('of a call with many types, before 5', [tuple(r) for r in COUNTS]),
    ]


# ---- kinds

# The source has names of its own for the parts of these.
SOURCE = {'dshiftctx': 'DShiftCtx', 'ishift': 'IShift', 'isubst': 'ISubst', 'dshift': 'DShift', 'dsubst': 'DSubst'}


def camel(name):
    """The name of a variant of the program's: `type.app` is `TypeApp`."""
    return ''.join(SOURCE.get(part, part[0].upper() + part[1:]) for part in re.split('[-._]', name))


def vars_of(kind):
    """The parts as variables: a, b, c by their places, and n for a number."""
    return ['n' if p.sort == 'number' else 'abc'[i] for i, p in enumerate(kind.parts)]


def parts_of(kind):
    """The parts, each with its variable."""
    return list(zip(kind.parts, vars_of(kind)))


def applied(constructor, arguments):
    """As a pattern or an argument: parentheses where there are arguments."""
    return '(%s)' % ' '.join([constructor] + arguments) if arguments else constructor


def node(kind):
    return applied(kind.node, vars_of(kind))


def judgment(j):
    return applied(j.name, [p.name for p in j.parts])


def shown(kind):
    return [p for p in kind.parts if p.shown]


def is_number(kind):
    """u, v and dim: their one part is a number."""
    return [p.sort for p in kind.parts] == ['number']


def cells(parts):
    """The parts that are cells."""
    return [p for p in parts if p.sort != 'number']


# Kinds of terms with one rule for each transform: all but variables.
TRANSFORMS = ('shift', 'subst', 'dshift', 'dsubst')
RULED = [k for k in TERMS if all('%s.%s' % (t, k.tag) in [r.name for r in RULES] for t in TRANSFORMS)]
TAKEN = [k for k in TERMS if k.taken]


def one_taken(kind):
    """What a lemma about a kind that is taken apart is named by: level, pi, lam."""
    return kind.taken.replace('_parts', '')


def variant(kind):
    """Its name in the program's `Shape`."""
    return kind.word.capitalize()


def arrows(kind, types, result, parts):
    return ' → '.join([types[p.sort] for p in parts] + [result])


NODE_TYPES = {'number': 'ℕ', 'term': 'Term', 'interval': 'Interval', 'context': 'Context'}
QUOTE_TYPES = {'number': 'ℕ', 'term': 'Quote', 'interval': 'Interval', 'context': 'Quotes'}


def quote_node(kind):
    """The constructor of a kind's quote: an interval is its own."""
    return kind.node if kind in INTERVALS else kind.name


# ---- layout

def by_byte(kinds, entry, blank, end):
    """A list with the entry of each kind at its byte."""
    out, at = '', 0
    for k in kinds:
        gap = k.byte - at
        out += '' if gap == 0 else '%s ∷ ' % blank if gap == 1 else 'replicate %d %s ++ ' % (gap, blank)
        out += entry(k) + ' ∷ '
        at = k.byte + 1
    return out + end


def nested(parts, step, last):
    """step(part, rest) around what is left, the last innermost."""
    return last if not parts else step(parts[0], nested(parts[1:], step, last))


def snake(name):
    """A name of the table as a word of antt."""
    return re.sub('[.-]', '_', name)


def antt_name(rule):
    return snake(rule.name)


# ---- use lines: one that names the first of a group names all of it

GROUPS = {
    'Syntax': [[k.node for k in TERMS], [k.node for k in INTERVALS], [k.name for k in TERMS]],
    'Reader': [['k_' + k.tag for k in TERMS], ['k_' + k.tag for k in INTERVALS], ['c_' + c.name for c in CALLS]],
    'Judgment': [[j.name for j in JUDGMENTS]],
    'Tables': [['s_' + k.word for k in TERMS], ['s_' + k.word for k in INTERVALS], ['l_' + k.word for k in ALL], ['j_' + j.name for j in JUDGMENTS]],
    'Table': [['read_' + j.name for j in JUDGMENTS]],
    'Said': [['cell_' + k.tag for k in INTERVALS], ['cell_' + k.tag for k in TERMS]],
    'Machine': [['make_' + k.word for k in ALL], ['at_' + k.word for k in TAKEN], ['on_' + k.word for k in TAKEN]],
    'Walk': [[k.taken for k in TAKEN], [k.tag + '_rule' for k in RULED]],
    'Walk.Typing': [[k.taken for k in TAKEN]],
    'Open': [['at_' + k.word for k in TAKEN]],
    'declared.cells.Shape.TheVariants': [[variant(k) for k in TAKEN]],
    'declared.calls.Code.TheVariants': [[c.name.capitalize() for c in CALLS]],
}


# What a file that goes by cases over terms names.
CASES = GROUPS['Syntax'][0]


def with_group(items, group):
    """The items of a use line, the group's names in the place of the first of them; one that is renamed stays so."""
    base = [i.split(' as ')[0] for i in items]
    if group[0] not in base:
        return items
    at = min(n for n, b in enumerate(base) if b in group)
    known = dict(zip(base, items))
    rest = [i for i, b in zip(items, base) if b not in group]
    return rest[:at] + [known.get(g, g) for g in group] + rest[at:]


def with_uses(text, by_cases=False):
    """The text with its use lines kept; by_cases: only where a line names the first eight kinds of terms."""
    def line(m):
        items = m.group(3).split(', ')
        for group in GROUPS[m.group(2)]:
            if not by_cases or (group is CASES and set(group[:8]) <= set(items)):
                items = with_group(items, group)
        return '%s.{%s}' % (m.group(1), ', '.join(items))
    return re.sub(r'(?m)^(use \S+\.specs\.(%s))\.\{(.*)\}' % '|'.join(GROUPS), line, text)
