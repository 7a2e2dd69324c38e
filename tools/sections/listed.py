"""crates/listed: the text of each kind and judgment, and the cells that hold it."""
from .common import JUDGMENTS, QUOTE_TYPES, applied, for_both, is_number, judgment, parts_of, quote_node, section

SAID, AGREES = 'crates/listed/specs/Said.antt', 'crates/listed/proofs/Agrees.antt'
CELLS, ROWS = 'crates/listed/specs/Cells.antt', 'crates/listed/proofs/Rows.antt'
OF = {'term': 'quote', 'interval': 'interval'}


def seen(k):
    """The parts that are shown: sort, variable of the cell, variable of the quote, place."""
    return [(p.sort, v, 'xyz'[n], n + 1) for n, (p, v) in enumerate(parts_of(k)) if p.shown]


def quoted(k):
    return applied(quote_node(k), ['n'] if is_number(k) else [x for _, _, x, _ in seen(k)])


def texts(k):
    return 'decimal n ∷ []' if is_number(k) else ''.join('%s_text %s ∷ ' % (OF[s], x) for s, _, x, _ in seen(k)) + '[]'


def text(k, group):
    said = 'called (bytes "%s") (%s)' % (k.name, texts(k)) if k.parts else 'bytes "%s"' % k.name
    return '%s_text %s = %s' % (group, quoted(k), said)


def cell(k, group):
    name = group.capitalize() + 'Cell'
    end = '%s C i %s' % (name, quoted(k))
    kind = 'cell_word C i 0 ≡ %d → ' % k.byte
    if is_number(k):
        return 'cell_%s : {i n : ℕ} → %scell_word C i 1 ≡ n → %s' % (k.tag, kind, end)
    words = ' '.join(['i'] + [v for _, v, _, _ in seen(k)])
    quotes = ''.join(' {%s : %s}' % (x, QUOTE_TYPES[s]) for s, _, x, _ in seen(k))
    parts = ''.join('PartIn C i %d %s → %sCell C %s %s → ' % (n, v, OF[s].capitalize(), v, x) for s, v, x, n in seen(k))
    return 'cell_%s : {%s : ℕ}%s → %s%s%s' % (k.tag, words, quotes, kind, parts, end)


def said(k, group):
    """Absent parts, up to three, leave nothing before the closing parenthesis."""
    if not k.parts:
        return '%s_said (cell_%s k) = rw (quote_node, k)' % (group, k.tag)
    closed = ' (close_%d (spaced (bytes "(%s") (%s)))'
    if is_number(k):
        return '%s_said (cell_%s {n = n} k e) = rw (quote_node, k, e)' % (group, k.tag) + closed % (2, k.name, texts(k))
    parts = seen(k)
    quotes = ''.join(' {%s = %s}' % (x, x) for _, _, x, _ in parts)
    held = ''.join(' p%d h%d' % (n, n) for _, _, _, n in parts)
    proofs = ''.join(', part_said _ p%d (%s_said h%d)' % (n, OF[s], n) for s, _, _, n in parts)
    end = closed % (3 - len(parts), k.name, texts(k)) if len(parts) < 3 else ''
    return '%s_said (cell_%s%s k%s) = rw (quote_node, k%s)%s' % (group, k.tag, quotes, held, proofs, end)


for_both(SAID, 'text of an %s', text, 'quote')
for_both(SAID, 'cell of an %s', cell, 'quote')
for_both(AGREES, 'text of an %s', said, 'quote')


@section(AGREES, 'text of a judgment')
def _():
    out = []
    for j in JUDGMENTS:
        n = len(j.parts)
        held = 'no_more'
        for i in reversed(range(n)):
            held = '(and_then h%d %s)' % (i, held)
        proofs = ', '.join('argument_said h%d' % i for i in range(n))
        closed = ' (close_%d (spaced (bytes "(" ++ judgment_name %d) (all_texts (arguments %s))))' % (5 - n, j.number, judgment(j))
        end = closed if n < 5 else ''
        out.append('judgment_said %s %s = rw (%s)%s' % (judgment(j), held, proofs, end))
    return out


def read_back(k, group):
    head = '%s_kind k_%s h e =' % (group, k.tag)
    if not k.parts or is_number(k):
        return '%s rw (← some_is e) (cell_%s h%s)' % (head, k.tag, ' refl' if k.parts else '')
    out, e = [head], 'e'
    for s, v, _, n in seen(k):
        out.append('    let %s = part_then C n %d (%s_at f C) _ %s in' % (v, n, OF[s], e))
        e = '%s.rest' % v
    held = ''.join(' %s.lies (%s _ _ %s.is)' % (v, 'cell' if OF[s] == group else OF[s] + '_cell f C', v) for s, v, _, n in seen(k))
    return '\n'.join(out + ['    rw (← some_is %s) (cell_%s h%s)' % (e, k.tag, held)])


for_both(CELLS, 'cell of an %s', read_back, 'quote')


@section(ROWS, 'numbers of arguments')
def _():
    return ['at_most_five %s = lit≤ tt' % judgment(j).replace('(', '(J.') for j in JUDGMENTS]
