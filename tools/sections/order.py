"""crates/order: the largest number in a term or a quote, and what is shown of it part by part; what the walk has no step for."""
from .common import INTERVALS, TERMS, applied, for_both, is_number, node, parts_of, section, vars_of

SPECS = 'crates/order/specs/'
NUMBERS, SENT = (SPECS + f + '.antt' for f in ('Numbers', 'Sent'))
BOUND = 'crates/order/proofs/Bound.antt'


def largest(tops):
    """The largest of several, 0 where there is none."""
    if len(tops) < 2:
        return (tops or ['0'])[0]
    rest = largest(tops[1:])
    return 'max (%s) %s' % (tops[0], '(%s)' % rest)


def top(k, sort):
    tops = ['n'] if is_number(k) else ['%s_top %s' % (p.sort, v) for p, v in parts_of(k)]
    return '%s_top %s = %s' % (sort, node(k), largest(tops))


for_both(NUMBERS, 'numbers of an %s', top)


@section(NUMBERS, 'numbers of a quote')
def _():
    def line(k):
        shown = [(p, v) for p, v in parts_of(k) if p.shown]
        sort = {'term': 'quote', 'interval': 'interval'}
        tops = ['n'] if is_number(k) else ['%s_top %s' % (sort[p.sort], v) for p, v in shown]
        return 'quote_top %s = %s' % (applied(k.name, [v for _, v in shown]), largest(tops))
    return [line(k) for k in TERMS]


def low(k, sort):
    head = '%s_low %s depth = ' % (sort, node(k))
    if is_number(k) or not k.parts:
        return head + 'leaf depth ' + (vars_of(k) or ['0'])[0]
    parts = ['%s_low %s (depth + 1)' % (p.sort, v) for p, v in parts_of(k)]
    all_parts = ' on '.join(parts[:-1] + [parts[-1]]) if len(parts) < 3 else '%s on (%s)' % (parts[0], ' on '.join(parts[1:]))
    return head + 'inner depth (%s)' % all_parts


for_both(SENT, 'numbers that are sent in an %s', low)


@section(BOUND, 'quotes')
def _():
    def line(k):
        lets = ''.join('let %s = quote_below %s in ' % (x, v) for x, (p, v) in zip('xyz', parts_of(k)) if p.shown and p.sort == 'term')
        return 'quote_below %s = %somega arith' % (node(k), lets)
    return [line(k) for k in TERMS]


def held(k, sort):
    parts = '' if is_number(k) else ''.join('%s_cells %s (omega arith) +++ ' % (p.sort, v) for p, v in parts_of(k))
    return '%s_cells %s h = %sone_cell h' % (sort, node(k), parts)


for_both(BOUND, 'cells of an %s', held)
