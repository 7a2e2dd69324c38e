"""crates/laws: the transforms as functions, and the proofs that go part by part with the binders that the table names."""
from .common import INTERVALS, TERMS, is_number, node, parts_of, section
from .link import back, read_node

SPECS, PROOFS = 'crates/laws/specs/', 'crates/laws/proofs/'
TRANSFORMS, CELLS = (SPECS + f + '.antt' for f in ('Transforms', 'Cells'))
SQUARES, TOPS = (PROOFS + f + '.antt' for f in ('Squares', 'Tops'))

BINDER = {'variable': 'false', 'dimension': 'true'}


def each(path, name, kinds, line):
    section(path, name)(lambda: [line(k) for k in kinds])


def by_parts(head, k, at_index, part):
    """A clause: at an index; where there is nothing to go into; else by `cc` from what holds of each part."""
    if k.node in ('Var', 'Dim'):
        return head + at_index
    facts = [] if is_number(k) else [fact for p, v in parts_of(k) for fact in part(p, v)]
    return head + ('cc (%s)' % ', '.join(facts) if facts else 'refl')


# ---- the functions

def of_interval(k):
    head = 'itransform op %s = ' % node(k)
    return head + ('at_dim op n' if k.node == 'Dim' else ' '.join([k.node] + ['(itransform op %s)' % v for _, v in parts_of(k)]))


def of_term(k):
    def part(p, v):
        if p.sort == 'number':
            return v
        if p.sort == 'interval':
            return '(at_interval op %s)' % v
        return '(transform_with %s %s)' % ('(under_with lift op %s)' % BINDER[p.under] if p.under else 'op', v)
    head = 'transform_with op %s = ' % node(k)
    return head + ('at_var op n' if k.node == 'Var' else ' '.join([k.node] + [part(p, v) for p, v in parts_of(k)]))


each(TRANSFORMS, 'an interval', INTERVALS, of_interval)
each(TRANSFORMS, 'a term', TERMS, of_term)


# ---- two of them, one after the other

def head(name, implicit, k):
    """A clause's left side: the implicit argument by its name, where a part under a binder has another."""
    return '%s%s h %s = ' % (name, ' {%s = %s}' % (implicit, implicit) if any(p.under for p in k.parts) else '', node(k))


def square(name, k):
    def part(p, v):
        if p.sort == 'interval':
            return ['C.interval h ' + v]
        under = BINDER[p.under] if p.under else ''
        return ['%s %s %s' % (name, '{p = under p %s} (C.binder h %s)' % (under, under) if under else 'h', v)]
    return by_parts(head(name, 'p', k), k, 'C.var h n', part)


for NAME in ('cancel', 'commute'):
    each(SQUARES, NAME + ', an interval', INTERVALS, lambda k, name='i' + NAME: by_parts('%s %s = ' % (name, node(k)), k, 'dim n', lambda p, v: ['%s %s' % (name, v)]))
    each(SQUARES, NAME + ', a term', TERMS, lambda k, name=NAME: square(name, k))


def under_shift(p):
    """The operation under a part's binder, and that it shifts."""
    return '{op = under_with f op %s} (shifts_under f h %s)' % (BINDER[p.under], BINDER[p.under])


def alike(k):
    def part(p, v):
        if p.sort == 'interval':
            return []
        if p.under:
            return ['alike %s %s' % (under_shift(p), v), 'alike_under h ' + BINDER[p.under]]
        return ['alike h ' + v]
    return by_parts(head('alike', 'op', k), k, 'refl', part)


each(SQUARES, 'alike', TERMS, alike)


# ---- how large the numbers get

def lets(k, part):
    return ''.join('let %s = %s in ' % (x, part(p, v)) for x, (p, v) in zip('xyz', parts_of(k))) + 'omega arith'


def shift_top(k):
    def part(p, v):
        if p.sort == 'interval':
            return 'interval_shift_top h ' + v
        return 'shift_top %s %s' % (under_shift(p) if p.under else 'h', v)
    return head('shift_top', 'op', k) + ('var_shift_top h n' if k.node == 'Var' else 'omega arith' if is_number(k) else lets(k, part))


each(TOPS, 'an interval', INTERVALS, lambda k: 'ishift_top k %s = ' % node(k) + ('up_low k n' if is_number(k) else lets(k, lambda p, v: 'ishift_top k ' + v)))
each(TOPS, 'a term', TERMS, shift_top)

# ---- Cells: a term with the parts that a quote leaves out

AT = {'term': 'at', 'interval': 'iat'}
each(CELLS, 'a term', TERMS, lambda k: 'term_by at iat k_%s a b c = %s' % (k.tag, read_node(k, k.node, k.parts, AT)))
each(CELLS, 'terms', TERMS, lambda k: back(k, 'term', k.parts))
