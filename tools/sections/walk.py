"""crates/walk: the syntax, judgments, rules' numbers and names, the reader's tables, limits, the cells of what is counted."""
from .common import (CALLS, INTERVALS, JUDGMENTS, NODE_TYPES, NOTE, QUOTE_TYPES, RULED, RULES, TAKEN, TERMS, TRANSFORMS, antt_name, arrows,
                     by_byte, for_both, is_number, judgment, nested, node, one_taken, parts_of, refusals, section, shown, snake, vars_of, whole)

SPECS = 'crates/walk/specs/'
SYNTAX, JUDGMENT, READER, SIZES, STATE = (SPECS + f + '.antt' for f in ('Syntax', 'Judgment', 'Reader', 'Limits', 'State'))

# ---- Syntax


@section(SYNTAX, 'kinds of intervals')
def _():
    return ['%s : %s' % (k.node, arrows(k, NODE_TYPES, 'Interval', k.parts)) for k in INTERVALS]


@section(SYNTAX, 'kinds of terms')
def _():
    return ['%s : %s' % (k.node, arrows(k, NODE_TYPES, 'Term', k.parts)) for k in TERMS]


@section(SYNTAX, 'kinds of quotes')
def _():
    return ['%s : %s' % (k.name, arrows(k, QUOTE_TYPES, 'Quote', shown(k))) for k in TERMS]


@section(SYNTAX, 'quotes')
def _():
    def part(p, v):
        return '(quote %s)' % v if p.sort == 'term' else v
    return ['quote %s = %s' % (node(k), ' '.join([k.name] + [part(p, v) for p, v in parts_of(k) if p.shown])) for k in TERMS]


# ---- Judgment

ARGUMENT = {'number': 'number', 'term': 'of_quote', 'interval': 'of_interval', 'context': 'of_context'}


@section(JUDGMENT, 'judgments')
def _():
    out = []
    for j in JUDGMENTS:
        out += ['-- %s: %s' % (judgment(j)[1:-1], j.meaning), '%s : %s' % (j.name, arrows(j, QUOTE_TYPES, 'Judgment', j.parts))]
    return out


@section(JUDGMENT, 'kinds of judgments')
def _():
    return ['kind %s = %d' % (judgment(j), j.number) for j in JUDGMENTS]


@section(JUDGMENT, 'arguments')
def _():
    return ['arguments %s = %s[]' % (judgment(j), ''.join('%s %s ∷ ' % (ARGUMENT[p.sort], p.name) for p in j.parts)) for j in JUDGMENTS]


# ---- Refusal

@whole(SPECS + 'Refusal.antt')
def _():
    def each(group):
        return '\n'.join('-- %s\nabbrev pub %s : ℕ\n%s = %d\n' % (because, snake(name), snake(name), number) for number, name, because in group)
    return '''-- The refusals: a name for each number. 0 is no refusal: what has this number is accepted.
-- %s
use Rattle.std.specs.Prelude.{ℕ}

%s''' % (NOTE, '\n'.join('-- %s\n\n%s' % (of, each(group)) for of, group in refusals()))


# ---- Rule, Concludes

@whole(SPECS + 'Rule.antt')
def _():
    number = '\n'.join('abbrev pub %s : ℕ\n%s = %d\n' % (antt_name(r), antt_name(r), r.number) for r in RULES)
    judgments = '\n'.join('abbrev %s : ℕ\n%s = %d\n' % (j.name, j.name, j.number) for j in JUDGMENTS)
    table = '\n'.join('    (%s named "%s" concludes %s) ∷' % (antt_name(r), r.name, r.judgment) for r in RULES)
    return f'''-- The rules by number, in the order of docs/FORMAT.md: `eq_p1` is its eq.p1; with their names and what each concludes.
-- {NOTE}
use Rattle.std.specs.Prelude.{{ℕ, suc, ◌≡◌, refl, List, [], ◌∷◌, get_or}}
use Prim.Native.String.{{String}}

{number}
-- The judgments by number, as Judgment's `kind` has them.
{judgments}
-- Every rule with its name, as the listing prints it, and the kind of judgment that it concludes (proved in Concludes).
pub record Named : Type 0 where
  pub number : ℕ
  pub name : String
  pub kind : ℕ

infix 50 ◌named◌concludes◌
abbrev ◌named◌concludes◌ : ℕ → String → ℕ → Named
◌named◌concludes◌ n s k = record {{ number = n; name = s; kind = k }}

abbrev pub rules : List Named
rules =
{table}
    []

-- How many there are.
abbrev pub rule_count : ℕ
rule_count = {len(RULES)}

-- A number that is no rule has an empty name, and concludes a kind that no judgment has.
abbrev pub no_rule : Named
no_rule = rule_count named "" concludes 255

unfoldable pub kind_of : ℕ → ℕ
kind_of n = (get_or rules n no_rule).kind

-- The table has the rules in the order of their numbers, each once.
abbrev numbers : List Named → List ℕ
numbers [] = []
numbers (r ∷ rs) = r.number ∷ numbers rs

abbrev numbered : ℕ → ℕ → List ℕ
numbered n ℕ.zero = []
numbered n (ℕ.suc k) = n ∷ numbered (suc n) k

pub in_order : numbers rules ≡ numbered 0 rule_count
in_order = refl
'''


# ---- Reader

@section(SPECS + 'Walk/Typing.antt', 'view')
def _():
    def seen(k):
        number = 'n' if is_number(k) else '0'
        terms = [v if p.sort == 'term' else 'Nat' for p, v in parts_of(k)]
        return ' '.join(['seen k_' + k.tag, number] + (terms + ['Nat'] * 3)[:3])
    return ['view %s = %s' % (node(k), seen(k)) for k in TERMS]


@section(SPECS + 'Walk/Transforms.antt', 'rules of a kind')
def _():
    out = []
    for k in RULED:
        numbers = ' '.join('R.%s_%s' % (t, k.tag) for t in TRANSFORMS)
        out += ['abbrev pub %s_rule : Op → ℕ' % k.tag, '%s_rule op = by_op op %s' % (k.tag, numbers), '']
    return out[:-1]


PLACES = ['one', 'two', 'three']


def seen_parts(k, view):
    """The number, or the parts by their places."""
    return [view + '.number'] if is_number(k) else [view + '.' + place for place in PLACES[:len(k.parts)]]


def taken_type(k):
    return ' × '.join(NODE_TYPES[p.sort] for p in k.parts)


@section(SPECS + 'Walk/Typing.antt', 'parts of a kind')
def _():
    out = []
    for k in TAKEN:
        parts = ', '.join(seen_parts(k, '(view t)'))
        parts = parts if len(seen_parts(k, '')) == 1 else '(%s)' % parts
        out += ['abbrev pub %s : Term → Option %s' % (k.taken, taken_type(k) if len(k.parts) == 1 else '(%s)' % taken_type(k)),
                '%s t = of_kind k_%s (view t) %s' % (k.taken, k.tag, parts), '']
    return out[:-1]


PARTS = SPECS + 'Sound/Parts.antt'


@section(PARTS, 'what a view says')
def _():
    def says(k):
        return 't ≡ ' + ' '.join([k.node] + seen_parts(k, 'v')) if k.taken else 'Unit {0}'
    return ['Whole k_%s v t = %s' % (k.tag, says(k)) for k in TERMS]


@section(PARTS, 'that it is so')
def _():
    return ['whole %s = %s' % (node(k), 'refl' if k.taken else 'tt') for k in TERMS]


@section(PARTS, 'what the parts are of')
def _():
    out = []
    for k in TAKEN:
        name, of = one_taken(k) + '_is', taken_type(k)
        parts = ['m'] if len(k.parts) == 1 else ['m.%d' % n for n in range(len(k.parts))]
        made = ' '.join([k.node] + parts)
        out += ['pub %s : (t : Term) (m : %s) → %s t ≡ some m → t ≡ %s' % (name, of, k.taken, made),
                '%s t m e = let x = is_of k_%s t _ m e in x.0 ∙ ap (λ (m : %s). %s) x.1' % (name, k.tag, of, made), '']
    return out[:-1]


@section(READER, 'kinds')
def _():
    return [
        'pub data Kind : Type 0 where',
        '  %s : Kind' % ' '.join('k_' + k.tag for k in TERMS),
        '  deriving Discrete as KindDiscrete',
        '',
        'pub data IKind : Type 0 where',
        '  %s : IKind' % ' '.join('k_' + k.tag for k in INTERVALS),
        '',
        'abbrev pub kinds : List (Option Kind)',
        'kinds = ' + by_byte(TERMS, lambda k: 'some k_' + k.tag, 'none', '[]'),
        '',
        'abbrev pub ikinds : List (Option IKind)',
        'ikinds = ' + by_byte(INTERVALS, lambda k: 'some k_' + k.tag, 'none', '[]'),
    ]


@section(READER, 'calls')
def _():
    return [
        'pub data Code : Type 0 where',
        '  %s : Code' % ' '.join('c_' + c.name for c in CALLS),
        '  deriving Discrete as CodeDiscrete',
        '',
        'abbrev pub codes : List (Option Code)',
        'codes = %s[]' % ''.join('some c_%s ∷ ' % c.name for c in CALLS),
        '',
        'abbrev pub terms_of : Code → ℕ',
    ] + ['terms_of c_%s = %d' % (c.name, len(c.terms)) for c in CALLS] + [
        '',
        '-- Whether a count and that many types come after them.',
        'abbrev pub lists_types : Code → Bool',
    ] + ['lists_types c_%s = %s' % (c.name, 'true' if c.counted else 'false') for c in CALLS]


# ---- Written: the bytes of a term, and of a code

WRITTEN = SPECS + 'Written.antt'
WRITES = {'number': '%s ∷ %s', 'term': 'write_term %s (%s)', 'interval': 'write_interval %s (%s)'}


def writing(k, sort):
    rest = nested(parts_of(k), lambda p, rest: WRITES[p[0].sort] % (p[1], rest), 'bs').replace('(bs)', 'bs')
    return 'write_%s %s bs = %d ∷ %s' % (sort, node(k), k.byte, rest)


for_both(WRITTEN, 'bytes of an %s', writing)
section(WRITTEN, 'bytes of codes')(lambda: ['code_byte c_%s = %d' % (c.name, c.code) for c in CALLS])


READS = {'number': 'byte', 'term': 'read_term f', 'interval': 'read_interval f'}


def reading(k):
    return nested(parts_of(k), lambda p, rest: '%s >>= λ %s. %s' % (READS[p[0].sort], p[1], rest), 'ok ' + node(k))


@section(READER, 'reading an interval')
def _():
    return ['| k_%s ↦ %s' % (k.tag, reading(k)) for k in INTERVALS]


@section(READER, 'reading a term')
def _():
    return ['| k_%s ↦ %s' % (k.tag, reading(k)) for k in TERMS]


# ---- Limits

def size_after(ps):
    """The size of these parts, one after the other, from the nodes before them."""
    part = 'size_%s %s (depth + 1)' % (ps[0][0].sort, ps[0][1])
    return '(%s)' % part if len(ps) == 1 else 'λ n. size_on (%s n) %s' % (part, size_after(ps[1:]))


def size(k):
    if not k.parts or is_number(k):
        return 'node depth nodes ' + (vars_of(k) or ['0'])[0]
    return 'size_on (node depth nodes 0) ' + size_after(parts_of(k))


@section(SIZES, 'size of an interval')
def _():
    return ['size_interval %s depth nodes = %s' % (node(k), size(k)) for k in INTERVALS]


@section(SIZES, 'size of a term')
def _():
    return ['size_term %s depth nodes = %s' % (node(k), size(k)) for k in TERMS]


# ---- State

def things(k, sort):
    parts = ''.join('of_%s %s ++ ' % (p.sort, v) for p, v in parts_of(k) if p.sort != 'number')
    return 'of_%s %s = %s%s %s ∷ []' % (sort, node(k), parts, sort, node(k))


@section(STATE, 'parts of an interval')
def _():
    return [things(k, 'interval') for k in INTERVALS]


@section(STATE, 'parts of a term')
def _():
    return [things(k, 'term') for k in TERMS]
