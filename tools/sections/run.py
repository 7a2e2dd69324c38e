"""crates/run: the cells of what was read, by the kind's byte."""
from .common import for_both, is_number, parts_of
from .syntax import GOES

TERMS_OF = 'crates/run/specs/Same/Terms.antt'


def builds(k, sort):
    """The parts one after the other, from their offsets: each is read to an end, and built from there to the same."""
    ps, head = parts_of(k), 'go k_%s b l e ih =' % k.tag

    def ended(over, stop, by, rw):
        return 'ended build_%s _ %s %s (%s bytes f at %d b refl ∙ rw (up_is at (omega arith)%s)' % (sort, over, stop, by, k.byte, rw)
    if not ps:
        return '%s let (p, q, s) = is_ok %s _ _ e in %s)' % (head, k.node, ended('p', 's', 'plain', ''))
    if is_number(k):
        return '\n'.join([
            head,
            '    let w = a_part _ goes_byte bytes (at + 1) e in',
            '    let c = a_byte bytes (at + 1) w.one in',
            '    let (p, q, s) = is_ok (%s w.first) _ _ w.two in' % k.node,
            '    ' + ended('(p ∙ ap %s c.is)' % k.node, '(s ∙ c.stop)', 'numbered', ', up_is (at + 1) (omega (arith, c.inside))') + ')',
        ])
    out, built, at, e = [head], [], '(at + 1)', 'e'
    for (p, _), v in zip(ps, 'wvy'):
        out.append('    let %s = a_part _ %s bytes %s %s in' % (v, GOES[p.sort], at, e))
        built.append('(ih %s _ _ _ %s.one)' % (at, v) if p.sort == sort else '(built_%s f %s %s.one)' % (p.sort, at, v))
        at, e = '%s.middle' % v, '%s.two' % v
    firsts = ' '.join('%s.first' % v for v in 'wvy'[:len(ps)])
    out.append('    let (p, q, s) = is_ok (%s %s) _ _ %s in' % (k.node, firsts, e))
    count = ['one', 'two', 'three'][len(ps) - 1]
    holes = ' '.join(['_'] * 2 * len(ps))
    out.append('    %s (%s (built f bytes) %d (at + 1) %s %s))' % (ended('p', 's', 'of_' + count, ''), count, k.byte, holes, ' '.join(built)))
    return '\n'.join(out)


for_both(TERMS_OF, 'kinds of an %s', builds)
