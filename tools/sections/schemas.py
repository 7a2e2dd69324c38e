"""crates/schemas: the rules as a table of patterns, what is written for each word of the listing, and a line for each rule where it is
proved that the table is the rules."""
from .common import CONTEXTS, INTERVALS, JUDGMENTS, RULES, TERMS, antt_name, applied, judgment, section, shown

SPECS, PROOFS = 'crates/schemas/specs/', 'crates/schemas/proofs/'
CODE, TABLE, FOLLOWS = SPECS + 'Code.antt', SPECS + 'Table.antt', PROOFS + 'Follows.antt'

# How a part of each sort is written, which letter asks for one when it is read, and what it is when read.
OF = {'number': 'leaf', 'term': 'of_quote', 'interval': 'of_interval', 'context': 'of_context'}
ASKS = {'number': 'n', 'term': 'q', 'interval': 'i', 'context': 'c'}
READ = {'term': 'read_quote', 'interval': 'read_interval', 'context': 'read_context'}

# Each sort of what stands in a listing: its kinds, the constructor of one, its name.
SORTS = [('interval', INTERVALS, 'an_interval'), ('quote', TERMS, 'a_quote'), ('context', CONTEXTS, 'a_context')]
CONSTRUCTOR = {'interval': lambda k: k.node, 'quote': lambda k: k.name, 'context': lambda k: k.name, 'judgment': lambda j: j.name}


def letters(parts):
    """A variable for each part, none of which is a name of Code."""
    return ['x%s' % '₀₁₂₃₄'[n] for n, _ in enumerate(parts)]


def tree(sort, k, parts):
    xs = letters(parts)
    args = [' '.join((OF[p.sort], x)) for p, x in zip(parts, xs)]
    text = '"%s" ! %s' % (k.name, ' · '.join(args + ['end'])) if args else 'named "%s"' % k.name
    return 'of_%s %s = %s' % (sort, applied(CONSTRUCTOR[sort](k), xs), text)


def word(sort, k, parts, made):
    xs = letters(parts)
    asked = ''.join('%s λ %s. ' % (ASKS[p.sort], x) for p, x in zip(parts, xs))
    return '("%s" means %s%s) ∷' % (k.name, asked, made % applied(CONSTRUCTOR[sort](k), xs))


def back(sort, k, parts):
    xs = letters(parts)
    facts = ', '.join('%s %s' % (READ[p.sort], x) for p, x in zip(parts, xs) if p.sort in READ)
    return 'read_%s %s = %s' % (sort, applied(CONSTRUCTOR[sort](k), xs), 'rw (%s)' % facts if facts else 'refl')


for sort_, kinds_, _ in SORTS:
    section(CODE, sort_ + 's as trees')(lambda s=sort_, ks=kinds_: [tree(s, k, shown(k)) for k in ks])
    section(CODE, sort_ + 's read back')(lambda s=sort_, ks=kinds_: [back(s, k, shown(k)) for k in ks])

section(CODE, 'judgments as trees')(lambda: [tree('judgment', j, j.parts) for j in JUDGMENTS])
section(CODE, 'judgments read back')(lambda: [back('judgment', j, j.parts) for j in JUDGMENTS])


@section(CODE, 'words')
def _():
    nodes = [word(sort, k, shown(k), 'it (%s %%s)' % made) for sort, kinds, made in SORTS for k in kinds]
    return nodes + [word('judgment', j, j.parts, 'j %s') for j in JUDGMENTS]


LINES = [(rule, number, line) for number, (rule, line) in enumerate((r, l) for r in RULES for l in r.lines)]


@section(TABLE, 'rules')
def _():
    return ['R.%s from "%s" to "%s" ∷' % (antt_name(rule), premises, conclusion) for rule, _, (premises, conclusion) in LINES]


def constructors(rule):
    """The rule's constructors: by its name, and one for each line where it has several."""
    return ['R.by_' + antt_name(rule) + ('_%d' % n if len(rule.lines) > 1 else '') for n, _ in enumerate(rule.lines)]


BY = [c for rule in RULES for c in constructors(rule)]

section(FOLLOWS, 'each line holds')(lambda: ['(λ e. %s) and' % by for by in BY])
section(FOLLOWS, 'each rule has its line')(lambda: ['complete %s = find lines %d tt refl refl' % (by, n) for n, by in enumerate(BY)])

section(PROOFS + 'Concludes.antt', 'kinds by name')(lambda: ['begins %s = refl' % judgment(j) for j in JUDGMENTS])
