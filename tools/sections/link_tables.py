"""crates/link/specs/Tables.antt: what the words of a cell (Shape), of a quote (Look) and of a judgment (Spoken) stand for, a constructor
a kind; that this stays as the store grows; and that words and things fix each other."""
from collections import namedtuple

from .common import CONTEXTS, INFERENCE, INTERVALS, JUDGMENTS, NODE_TYPES, NOTE, QUOTE_TYPES, TERMS, applied, quote_node, whole

# A constructor of one of the tables: its name, the kind's number, what it stands for, applied to its parts, and the sort of each part,
# none where the part is left out.
Row = namedtuple('Row', 'name kind stands sorts')

THING = [(TERMS, 'term', 'a_quote'), (INTERVALS, 'interval', 'an_interval'), (CONTEXTS, 'context', 'a_context')]
OF_THINGS = {sort: (NODE_TYPES[sort], sort) for _, sort, _ in THING}
OF_QUOTES = {sort: (QUOTE_TYPES[sort], shown) for _, sort, shown in THING}


def stands(wrap, constructor):
    return lambda arguments: wrap + ' ' + applied(constructor, arguments)


THINGS = [Row(k.word, k.byte, stands(sort, k.node), [p.sort for p in k.parts]) for ks, sort, _ in THING for k in ks]
QUOTES = [Row(k.word, k.byte, stands(shown, quote_node(k)), [p.sort if p.shown else None for p in k.parts])
          for ks, _, shown in THING for k in ks]
SPOKEN = [Row(j.name, j.number, lambda arguments, j=j: ' '.join(['J.' + j.name] + arguments), [p.sort for p in j.parts])
          for j in JUDGMENTS]


def cells(row):
    """How many of the parts are cells."""
    return sum(s not in (None, 'number') for s in row.sorts)


def pattern(constructor, letter, n):
    return applied(constructor, [f'{letter}{i}' for i in range(n)])


def listed(names):
    return '(' + ' ∷ '.join(names + ['[]']) + ')'


def table(data, rows, sorts, prefix, relation, width, what, counted=False):
    """A data type with a constructor a row, and the lemmas on it. relation: Cell or Low. counted: a word has the number of parts."""
    words = list('abcde'[:width])
    index = ['kind'] + (['count'] if counted else []) + words
    primed = [name + "'" for name in index]
    other = ["count'" if name == 'count' else name for name in index]
    rel = relation.lower()
    constructors, lifts, sames, words_same = [], [], [], []
    for row in rows:
        implicit, premises, arguments, stand = [], [], [], []
        for word, s in zip(words, row.sorts):
            if s is None:
                stand.append('0')
                continue
            implicit.append(f'{{{word} : ℕ}}')
            stand.append(word)
            if s == 'number':
                arguments.append(word)
            else:
                of, wrap = sorts[s]
                implicit.append(f"{{{word}' : {of}}}")
                arguments.append(word + "'")
                premises.append(f"{relation} {word} ({wrap} {word}') xs → ")
        stand += ['0'] * (width - len(stand))
        numbers = [str(row.kind)] + ([str(len(row.sorts))] if counted else []) + stand
        binders = ' '.join(implicit) + ' → ' if implicit else ''
        name, n = prefix + row.name, cells(row)
        constructors.append(f"  {name} : {binders}{''.join(premises)}{data} xs {' '.join(numbers)} ({row.stands(arguments)})")
        h, k = pattern(name, 'h', n), pattern(name, 'k', n)
        lifts.append(f'{prefix}lift e {h} = ' + ' '.join([name] + [f'({rel}_lift e h{i})' for i in range(n)]))
        for lemma, by, out in [('same', 'same', sames), ('words', 'number', words_same)]:
            lets = ''.join(f'let e{i} = {rel}_{by} h{i} k{i} in ' for i in range(n))
            out.append(f"{prefix}{lemma} {h} {k} = {lets + 'cc' if n else 'refl'}")
    i, j, things = ' '.join(index), ' '.join(primed), '{xs : List Thing}'
    both = ' '.join(index[:1] + (['count', "count'"] if counted else []) + words)

    def lemma(name, type_, clauses):
        return f'pub {prefix}{name} : {type_}\n' + '\n'.join(clauses)
    return '\n\n'.join([
        f'pub data {data} (xs : List Thing) : ({i} : ℕ) → {what} → Type 0 where\n' + '\n'.join(constructors),
        lemma('lift', f'{{xs ys : List Thing}} {{{i} : ℕ}} {{x : {what}}} → Extends xs ys → {data} xs {i} x → {data} ys {i} x', lifts),
        '-- words fix what they stand for, and are fixed by it\n'
        + lemma('same', f"{things} {{{both} : ℕ}} {{x y : {what}}} → {data} xs {i} x → {data} xs {' '.join(other)} y → x ≡ y", sames),
        lemma('words', f'{things} {{{i} {j} : ℕ}} {{x : {what}}} → {data} xs {i} x → {data} xs {j} x → {listed(index)} ≡ {listed(primed)}', words_same),
    ])


def plain(data, rows, prefix, what, is_plain):
    """None of the kinds is that of a remembered inference."""
    clauses = [f"{prefix}plain {pattern(prefix + row.name, 'h', cells(row))} = (refl, tt, refl)" for row in rows]
    facts = f'(eqb {INFERENCE} kind ≡ false) × {is_plain} x × (eqb kind {INFERENCE} ≡ false)'
    return f'pub {prefix}plain : {{xs : List Thing}} {{kind a b c : ℕ}} {{x : {what}}} → {data} xs kind a b c x → {facts}\n' + '\n'.join(clauses)


def parts_known():
    """A thing's parts have cells where its shape is known."""
    parts_of, known = [], []
    for row in THINGS:
        arguments = [word + "'" for word, _ in zip('abc', row.sorts)]
        listed_parts = ''.join(f'{s} {a} ∷ ' for s, a in zip(row.sorts, arguments) if s != 'number')
        parts_of.append(f'parts ({row.stands(arguments)}) = {listed_parts}[]')
        n = cells(row)
        held = ''.join(f'known (held h{i}) (' for i in range(n)) + 'none_left' + ')' * n
        known.append(f"shape_known {pattern('s_' + row.name, 'h', n)} = {held}")
    return ('-- the parts of a thing have cells\nabbrev pub parts : Thing → List Thing\n'
            + '\n'.join(parts_of) + '\nparts (inference k) = []\n\n'
            'pub shape_known : {xs : List Thing} {kind a b c : ℕ} {x : Thing} → Shape xs kind a b c x → Known xs (parts x)\n' + '\n'.join(known))


@whole('crates/link/specs/Tables.antt')
def _():
    nodes = ['Interval'] + [k.node for k in INTERVALS] + ['Term'] + [k.node for k in TERMS] + ['Context'] + [k.node for k in CONTEXTS]
    quotes = ['Quote'] + [k.name for k in TERMS] + ['Quotes'] + [k.name for k in CONTEXTS]
    return '\n\n'.join([
        f'''-- What the words of a cell and of a row stand for: a constructor a kind.
-- {NOTE}
use Rattle.std.specs.Prelude.{{ℕ, ◌≡◌, refl, List, [], ◌∷◌, false, eqb}}
use Rattle.walk.specs.Syntax.{{{', '.join(nodes + quotes)}}}
use Rattle.walk.specs.Judgment.{{Judgment}}
use Rattle.walk.specs.Judgment as J
use Rattle.walk.specs.State.{{Thing, term, interval, context, inference}}
use Rattle.link.specs.Lists.{{Extends}}
use Rattle.link.specs.Things.{{Shown, a_quote, an_interval, a_context, Cell, Low, cell_lift, low_lift, cell_same, cell_number, low_same, low_number, Plain, Seen, held, Known, none_left, known}}''',
        '-- the kind and the parts of a cell\n' + table('Shape', THINGS, OF_THINGS, 's_', 'Cell', 3, 'Thing'),
        '-- the same of a quote, over the lowest cells with its parts\n' + table('Look', QUOTES, OF_QUOTES, 'l_', 'Low', 3, 'Shown'),
        plain('Shape', THINGS, 's_', 'Thing', 'Plain'),
        plain('Look', QUOTES, 'l_', 'Shown', 'Seen'),
        parts_known(),
        '-- the kind and the arguments of a judgment\n' + table('Spoken', SPOKEN, OF_QUOTES, 'j_', 'Low', 5, 'Judgment', counted=True),
    ]) + '\n'
