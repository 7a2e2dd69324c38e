"""crates/rules: the constant tables of the listing, and the lists that they are proved to hold."""
import textwrap

from .common import ALL, JUDGMENTS, NOTE, RULES, judgment, section, whole

KINDS = 'crates/rules/specs/Kinds.antt'
SORTS = ['number', 'term', 'interval', 'context']


def listed(parts, entry):
    return ''.join(entry(p) + ' ∷ ' for p in parts) + '[]'


@section(KINDS, 'judgments')
def _():
    return ['("%s" takes %s) ∷' % (j.name, listed(j.parts, lambda p: p.sort)) for j in JUDGMENTS]


@section(KINDS, 'nodes')
def _():
    out, at = [], 0
    for k in ALL:
        gap = k.byte - at
        if gap:
            out.append('no_node ∷' if gap == 1 else 'replicate %d no_node ++' % gap)
        words = [(p, n + 1) for n, p in enumerate(k.parts) if p.shown]
        out.append('("%s" shows %s) ∷' % (k.name, listed(words, lambda w: '(%s in_word %d)' % (w[0].sort, w[1]))))
        at = k.byte + 1
    return out


@section(KINDS, 'counts')
def _():
    counts = [('judgment_count', len(JUDGMENTS)), ('node_count', ALL[-1].byte + 1)]
    return '\n\n'.join('abbrev pub %s : ℕ\n%s = %d' % (s, s, n) for s, n in counts).split('\n')


HEAD = f'''// The tables of rules, judgments and nodes. The functions of lib.rt read them, and their proofs compare each with its rule.
// {NOTE}
use crate::Sort::{{Context, Interval, Number, Term}};
use crate::{{Part, Sort}};

// A rule: its name, and the kind of judgment that it concludes.
#[derive(Clone, Copy)]
pub struct Rule {{
    pub name: &'static [u8],
    pub kind: u32,
}}

// A judgment: its name, and the sorts of its arguments.
#[derive(Clone, Copy)]
pub struct Judgment {{
    pub name: &'static [u8],
    pub sorts: &'static [Sort],
}}

// A node: its name, and the parts that its quote shows.
#[derive(Clone, Copy)]
pub struct Node {{
    pub name: &'static [u8],
    pub parts: &'static [Part],
}}
'''


def made(struct, **fields):
    """A value of a struct, as rt fmt lays it out: a field a line."""
    return struct + ' {\n' + ''.join(f'    {name}: {value},\n' for name, value in fields.items()) + '}'


def a_slice(entries):
    return '&[%s]' % ', '.join(entries)


def a_rule(name, kind):
    return made('Rule', name=f'b"{name}"', kind=kind)


def a_judgment(name, parts):
    return made('Judgment', name=f'b"{name}"', sorts=a_slice(p.sort.capitalize() for p in parts))


def a_node(name, parts):
    return made('Node', name=f'b"{name}"', parts=a_slice('%s_%d' % (sort.upper(), word) for sort, word in shown(parts)))


def shown(parts):
    """The parts that a quote shows: the sort of each, and the word where it stands."""
    return [(p.sort, n + 1) for n, p in enumerate(parts) if p.shown]


def constant(name, struct, value):
    return f'const {name}: {struct} = {value};\n'


def table(name, struct, entries):
    return f'pub static {name}: [{struct}; {len(entries)}] = [\n' + textwrap.indent(''.join(e + ',\n' for e in entries), '    ') + '];\n'


@whole('crates/rules/src/tables.rt')
def _():
    kind = {j.name: j.number for j in JUDGMENTS}
    nodes = {k.byte: a_node(k.name, k.parts) for k in ALL}
    parts = sorted({p for k in ALL for p in shown(k.parts)}, key=lambda p: (SORTS.index(p[0]), p[1]))
    return '\n'.join([
        HEAD,
        '// What is read past the end of each table.\npub ' + constant('NO_RULE', 'Rule', a_rule('', 255)),
        'pub ' + constant('NO_JUDGMENT', 'Judgment', a_judgment('', [])),
        'pub ' + constant('NO_NODE', 'Node', a_node('', [])),
        '// The rules by their number.\n' + table('RULES', 'Rule', [a_rule(r.name, kind[r.judgment]) for r in RULES]),
        '// The judgments by their kind.\n' + table('JUDGMENTS', 'Judgment', [a_judgment(j.name, j.parts) for j in JUDGMENTS]),
        '// Parts by their sort and the word of the cell that holds them.\n' +
        '\n'.join(constant('%s_%d' % (sort.upper(), word), 'Part', made('Part', sort=sort.capitalize(), word=word)) for sort, word in parts),
        '// The nodes by their kind.\n' + table('NODES', 'Node', [nodes.get(byte, 'NO_NODE') for byte in range(ALL[-1].byte + 1)]),
    ])


@section('crates/rules/specs/Sorts.antt', 'sorts of judgments')
def _():
    return ['sorted %s = refl' % judgment(j) for j in JUDGMENTS]
