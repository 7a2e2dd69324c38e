"""crates/search: a clause for each kind where two cells are compared by what their quotes show."""
from .common import CONTEXTS, INTERVALS, JUDGMENTS, TERMS, applied, cells, is_number, node, section

SHOWN = 'crates/search/specs/Shown.antt'

# For each group of kinds: its name, its kinds, what a kind's quote is called, and how its parts are compared.
GROUPS = (('interval', INTERVALS, lambda k: k.node, {'interval': 'at'}), ('quote', TERMS, lambda k: k.name, {'term': 'at', 'interval': 'iat'}))


def shown(k):
    return [p for p in k.parts if p.shown]


def byte(what, k, of):
    return '%s_byte %s = %d' % (what, applied(of(k), ['xyz'[n] for n, _ in enumerate(shown(k))]), k.byte)


def kind(what, k, of):
    fact = 'ap %s_byte (some_is e)' % what
    for n in reversed(range(0 if is_number(k) else len(shown(k)))):
        fact = 'then_byte _ _ (λ %s e. %s) e' % ('xyz'[n], fact)
    head = 'quote_kind at iat k_%s a b c e' if what == 'quote' else 'interval_kind at k_%s a b e'
    return head % k.tag + ' = ' + fact


def alike(what, k, of, by):
    head = '%s_node at %sk_%s = ' % (what, 'iat ' if what == 'quote' else '', k.tag)
    parts = shown(k)
    if is_number(k):
        return head + 'like_number %s (λ x y e. cc) _ _' % of(k)
    if not parts:
        return head + 'like_itself (some %s)' % of(k)
    names = ' '.join("%s %s'" % (x, x) for x, _ in zip('xyz', parts))
    facts = {1: 'cc', 2: '(cc, cc)', 3: '(cc, (cc, cc))'}[len(parts)]
    return head + ' '.join(['like_%d %s (λ %s e. %s)' % (len(parts), of(k), names, facts)] + ['(%s _ _)' % by[p.sort] for p in parts])


def clauses(name, line):
    for what, kinds, of, by in GROUPS:
        section(SHOWN, name % (('an ' if what == 'interval' else 'a ') + what))(lambda what=what, kinds=kinds, of=of, by=by: [line(what, k, of, by) for k in kinds])


clauses('byte of %s', lambda what, k, of, by: byte(what, k, of))
clauses('kind of %s', lambda what, k, of, by: kind(what, k, of))
clauses('%s and another', alike)


# ---- Arguments: what is read as a judgment, by its arguments

ARGUMENTS = 'crates/search/specs/Arguments.antt'


@section(ARGUMENTS, 'what a reading tells')
def _():
    out = []
    for j in JUDGMENTS:
        parts = cells(j.parts)
        letters = dict(zip([p.name for p in parts], 'xyzw'))
        facts = ''.join('%s then ' % ('refl' if p.sort == 'number' else letters[p.name] + '.is') for p in j.parts)
        last = 'e'
        binds = ''
        for p in parts:
            x = letters[p.name]
            binds += 'let %s = bound _ _ %s in ' % (x, last)
            last = x + '.next'
        out += ['told_%s : (C : List ℕ) (j : Judgment) (m a b c d e : ℕ) → read_%s m C a b c d e ≡ some j → Told %d m C a b c d e j' % (j.name, j.name, JUDGMENTS.index(j)),
                'unfolding read_%s' % j.name,
                'told_%s _ _ _ _ _ _ _ _ e = %sat_judgment %s (record { is = refl; all = %snone_left })' % (j.name, binds, '(some_is %s)' % last, facts), '']
    return out[:-1]


@section(ARGUMENTS, 'each reading')
def _():
    return ['readings_tell = ' + ''.join('told_%s also ' % j.name for j in JUDGMENTS) + 'no_more']


@section(ARGUMENTS, 'read by its arguments')
def _():
    out = []
    for j in JUDGMENTS:
        facts = ['h%d' % n for n, _ in enumerate(j.parts)]
        out.append('arguments_asked %s _ _ _ _ _ _ _ (%s then none_left) = rw (%s)' % (applied(j.name, [p.name for p in j.parts]), ' then '.join(facts), ', '.join(facts)))
    return out


@section(ARGUMENTS, 'few arguments')
def _():
    return ['few %s = omega arith' % applied(j.name, [p.name for p in j.parts]) for j in JUDGMENTS]


# ---- Held: the rows of a run

HELD = 'crates/search/specs/Held.antt'


@section(HELD, 'kinds of judgments')
def _():
    return ['spoken_kind %s = refl' % applied('j_' + j.name, ['h%d' % n for n, _ in enumerate(cells(j.parts))]) for j in JUDGMENTS]


@section(HELD, 'kinds of things')
def _():
    lines = ['(inference (key d g t))']
    for sort, kinds in (('term', TERMS), ('interval', INTERVALS), ('context', CONTEXTS)):
        lines += ['(%s %s)' % (sort, node(k)) for k in kinds]
    return ['kind_sorts xs %s k e = rw (← some_is e) (refl, (refl, refl))' % thing for thing in lines]
