"""crates/syntax: the codes of calls with their terms; the parts of each kind, and for each a clause of the proofs about reading, depth and
size."""
from .common import CALLS, INTERVALS, NOTE, TERMS, applied, for_both, is_number, nested, node, parts_of, section, whole
from .walk import reading, size_after

SPECS, PROOFS = 'crates/syntax/specs/', 'crates/syntax/proofs/'
KINDS, PARTS, NODES, ENDS, FUEL = (SPECS + f + '.antt' for f in ('Kinds', 'Parts', 'Nodes', 'Ends', 'Fuel'))
BYTES = 'crates/walk/specs/Bytes.antt'
OVER, MEASURE = PROOFS + 'Over.antt', PROOFS + 'Measure.antt'


def i(sort):
    """Names of what is about intervals start with i where those about terms have no letter."""
    return 'i' if sort == 'interval' else ''


def arm(k, text):
    return '| k_%s ↦ %s' % (k.tag, text)


# ---- Parts: what follows a kind's byte

PART = {'number': 'index', 'term': 'term', 'interval': 'interval'}
for_both(PARTS, 'parts of an %s kind',
         lambda k, sort: '%sparts k_%s = %s[]' % (i(sort), k.tag, ''.join(PART[p.sort] + ' ∷ ' for p in k.parts)))

# ---- Bytes of walk, and Kinds: the byte of each

for_both(BYTES, 'bytes of %s kinds', lambda k, sort: '%skind_byte k_%s = %d' % (i(sort), k.tag, k.byte))


def table(bytes_):
    """The reader's table has each kind, or code, at its byte."""
    def entries(bs, at):
        if not bs:
            return 'end'
        gap, rest = bs[0] - at, 'entry refl (%s)' % entries(bs[1:], bs[0] + 1)
        rest = rest.replace('(end)', 'end')
        return rest if gap == 0 else 'blank (%s)' % rest if gap == 1 else 'blanks %d %d (%s)' % (gap, at, rest)
    return 'table = ' + entries(bytes_, 0)


section(BYTES, 'table of interval kinds')(lambda: [table([k.byte for k in INTERVALS])])
section(BYTES, 'table of term kinds')(lambda: [table([k.byte for k in TERMS])])
section(KINDS, 'table of codes')(lambda: [table([c.code for c in CALLS])])

# ---- Nodes: the reader of what follows a kind's byte

for_both(NODES, 'reader of an %s', lambda k, sort: '%s_of f k_%s = %s' % (sort, k.tag, reading(k)))
for_both(NODES, 'kinds of an %s', lambda k, sort: arm(k, 'refl'))

# ---- Ends: how far a reader goes

GOES = {'number': 'goes_byte', 'term': '(goes_term f)', 'interval': '(goes_interval f)'}
for_both(ENDS, 'kinds of an %s',
         lambda k, sort: arm(k, nested(parts_of(k), lambda p, rest: 'goes_part %s (λ %s. %s)' % (GOES[p[0].sort], p[1], rest), 'goes_ok _')))

# ---- Over: the scan over a stack of parts

SCANS = {'number': 'an_index', 'term': '(a_term f)', 'interval': '(an_interval f)'}
for_both(OVER, 'kinds of an %s',
         lambda k, sort: arm(k, nested(parts_of(k), lambda p, rest: 'then %s (λ %s. %s)' % (SCANS[p[0].sort], p[1], rest), 'done _')))

# ---- Measure: the size of what is read

LAWS = ['refl', 'refl', 'size_on_on (own depth n) _ _', 'three (own depth n) _ _ _']


def measure(k, sort):
    if is_number(k):
        return arm(k, 'then number (λ l. done (%s l) (λ n. node_index depth n l))' % k.node)

    def step(p, rest):
        before = '(own depth)' if p[1] == 'a' else '_'
        part = '(part %s)' % before if p[0].sort == sort else '(after_size %s (sizes_%s f (depth + 1)))' % (before, p[0].sort)
        return 'then %s (λ %s. %s)' % (part, p[1], rest)
    return arm(k, nested(parts_of(k), step, 'done %s (λ n. %s)' % (node(k), LAWS[len(k.parts)])))


for_both(MEASURE, 'kinds of an %s', measure)

# ---- Fuel: how deep a term nests, and that no more depth is needed to read it

HEIGHT = {'term': 'Height', 'interval': 'IHeight'}


def cells(k):
    return [] if is_number(k) else parts_of(k)


def height(k, sort):
    parts = ' × '.join('%s g %s' % (HEIGHT[p.sort], v) for p, v in cells(k)) or 'Unit {0}'
    return '%s (suc g) %s = %s' % (HEIGHT[sort], node(k), parts)


def keeps(k, sort):
    ps = cells(k)

    def part(p):
        return 'part' if p.sort == sort else '(keeps_%s f g)' % p.sort

    def field(n):
        return 'h.%d' % n if len(ps) > 1 else 'h'

    def go(n):
        p, v = ps[n]
        if n == len(ps) - 1:
            return 'last %s %s (λ %s h. %s)' % (applied(k.node, [v for _, v in ps[:n]]), part(p), v, field(n))
        makes = nested(ps[n + 1:], lambda q, rest: 'makes_then makes_any (λ %s u. %s)' % (q[1], rest), 'makes_ok _ (λ h. %s)' % field(n))
        return 'keeps_then %s (λ %s. %s) (λ %s. %s)' % (part(p), v, makes, v, go(n + 1))
    return arm(k, go(0) if ps else 'keeps_on byte (λ n. keeps_ok _)' if k.parts else 'keeps_ok _')


def depth(k, sort):
    proof = '(one_part depth nodes _ e).0' if cells(k) else 'node_depth depth nodes %s e' % ('n' if k.parts else '0')
    return 'depth_%s %s depth nodes e = %s' % (sort, node(k), proof)


def fits(k, sort):
    ps, head = cells(k), 'fits_%s %s (suc g) depth nodes e l =' % (sort, node(k))

    def fit(p, e):
        return 'fits_%s %s g (depth + 1) _ %s (omega arith)' % (p[0].sort, p[1], e)
    if not ps:
        return head + ' tt'
    if len(ps) == 1:
        return head + ' ' + fit(ps[0], '(one_part depth nodes _ e).1.1')
    out, proofs, last, e = [head, '    let w = (one_part depth nodes _ e).1 in'], [], 'w', 'w.1'
    for n, (p, v) in enumerate(ps[:-1]):
        new, rest = 'vuxy'[n], size_after(ps[n + 1:])
        rest = rest if rest.startswith('(') else '(%s)' % rest
        out.append('    let %s = size_first (size_%s %s (depth + 1) %s.0) %s %s in' % (new, p.sort, v, last, rest, e))
        proofs.append(fit((p, v), new + '.1'))
        last, e = new, new + '.2'
    return '\n'.join(out + ['    (%s)' % ', '.join(proofs + [fit(ps[-1], e)])])


for_both(FUEL, 'height of an %s', height)
for_both(FUEL, 'kinds of an %s', keeps)
for_both(FUEL, 'depth of an %s', depth)
for_both(FUEL, 'an %s that fits', fits)


# ---- parts.rt: the same as a match on the byte

SOURCE = 'crates/syntax/src/parts.rt'
for_both(SOURCE, 'parts of an %s',
         lambda k, sort: '%d => Some(&[%s]),' % (k.byte, ', '.join('Part::' + PART[p.sort].capitalize() for p in k.parts)))


# ---- calls.rt: the codes of calls. Told, Heads: the number of each, and that it stands there in the reader's table

HIGHEST = max(c.code for c in CALLS)
HEADS = SPECS + 'Heads.antt'


def variant(c):
    return c.name.capitalize()


def arms(line):
    return '\n'.join(' ' * 12 + line(c) for c in CALLS)


@whole('crates/syntax/src/calls.rt')
def _():
    variants = '\n'.join('    %s = %d,' % (variant(c), c.code) for c in CALLS)
    of = arms(lambda c: '%d => Some(Code::%s),' % (c.code, variant(c)))
    terms = arms(lambda c: 'Code::%s => %d,' % (variant(c), len(c.terms)))
    counted = arms(lambda c: 'Code::%s => %s,' % (variant(c), 'true' if c.counted else 'false'))
    return f'''// The codes of calls: docs/FORMAT.md.
// {NOTE}
ghost use Rattle.std.specs.Prelude.{{◌≡◌, get_or}};
ghost use Rattle.std.proofs.Math.Option.{{none}};
ghost use Rattle.walk.specs.Reader.{{codes, terms_of, lists_types}};
ghost use Rattle.syntax.specs.Told.{{code_number, code_of, code_in}};

#[derive(Clone, Copy, Debug, PartialEq, Eq)]
pub enum Code {{
{variants}
}}

impl Code {{
    // The code that this byte is.
    #[tactic(auto, unfolding(crate::specs::Told::code_in))]
    pub fn of(byte: u8) -> Option<Code>
        ensures {{ result ≡ code_in (get_or codes byte none) }}
    {{
        match byte {{
{of}
            _ => None,
        }}
    }}

    // The byte that it is.
    #[tactic(auto, unfolding(crate::specs::Told::code_of))]
    pub fn number(self) -> u8
        ensures {{ result ≡ code_number (code_of self) }}
    {{
        self as u8
    }}

    // How many terms follow the context of a call with this code.
    pub fn terms(self) -> usize
        ensures {{ result ≡ terms_of (code_of self) }}
    {{
        match self {{
{terms}
        }}
    }}

    // Whether a count and that many types come after them.
    pub fn lists_types(self) -> bool
        ensures {{ result ≡ lists_types (code_of self) }}
    {{
        match self {{
{counted}
        }}
    }}
}}
'''


def number(n, rest='zero'):
    """A number as a pattern."""
    return rest if n == 0 else '(suc %s)' % number(n - 1, rest)


def for_codes(path, name, line, *more):
    section(path, name)(lambda: [line(c) for c in CALLS] + list(more))


@section(SPECS + 'Told.antt', 'numbers of codes')
def _():
    return (['code_number c_%s = %d' % (c.name, c.code) for c in CALLS]
            + ['', 'abbrev pub highest_code : ℕ', 'highest_code = %d' % HIGHEST])


for_codes(SPECS + 'Told.antt', 'codes told', lambda c: 'code_told c_%s = %s' % (c.name, variant(c)))
for_codes(SPECS + 'Told.antt', 'codes of the program', lambda c: 'code_of %s = c_%s' % (variant(c), c.name))

for_codes(HEADS, 'codes by number', lambda c: 'is_code %s h = record { code = _; here = refl; number = refl }' % number(c.code),
          'is_code %s h = absurd (let z : ⊥ = omega arith in z)' % number(HIGHEST + 1, 'n'))
for_codes(HEADS, 'terms by code', lambda c: 'terms_in_code c_%s = refl' % c.name)
for_codes(HEADS, 'few terms', lambda c: 'few_terms (some c_%s) = omega arith' % c.name)
for_codes(HEADS, 'codes again', lambda c: 'code_again c_%s = refl' % c.name)
for_codes(HEADS, 'many by number', lambda c: 'many_number c_%s = refl' % c.name)
for_codes(HEADS, 'many by code', lambda c: 'is_many c_%s e = %s' % (c.name, 'refl' if c.counted else 'absurd (let z : ◌≡◌ {A = ℕ} 0 1 = cc in omega arith)'))
