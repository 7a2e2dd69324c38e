"""The kinds that the walk takes apart (`taken` in tools/language.py), in the program and its proofs: the enum `Shape` (crates/ast), what
goes on from each shape and the laws of it (crates/producer), and that this matches the walk (crates/link)."""
from .common import NODE_TYPES, TAKEN, TERMS, applied, camel, cells, is_number, one_taken, parts_of, section, variant, vars_of
from .link import shape
from .program import NUMBERED, kind_answers

CODE, CELLS, MACHINE = 'crates/ast/src/cells.rt', 'crates/ast/specs/Cells.antt', 'crates/producer/specs/Machine.antt'
AT, STEPS, OPEN = 'crates/producer/proofs/At.antt', 'crates/producer/proofs/Steps.antt', 'crates/link/specs/Open.antt'


def apart(k):
    """A shape as a pattern."""
    return applied(variant(k), vars_of(k))


# ---- ast: the enum, and a cell taken apart

@section(CODE, 'shapes')
def _():
    return ['%s(%s),' % (variant(k), ', '.join(['u32'] * len(k.parts))) for k in TAKEN]


@section(CODE, 'taken apart')
def _():
    out = []
    for k in TAKEN:
        words = ', '.join('cell.' + w for w in 'abc'[:len(k.parts)])
        out.append('Kind::%s => Shape::%s(%s),' % (camel(k.word), variant(k), words))
    return out


kind_answers('ast/cells/shape_of', [('shape_of', 'Rattle.ast.specs.Cells'), NUMBERED], ['← c.read-cell.ensures'], TAKEN)


@section(CELLS, 'taken apart')
def _():
    tests = ['ifb (w.kind == %d) %s' % (k.byte, applied(variant(k), ['w.' + w for w in 'abc'[:len(k.parts)]])) for k in TAKEN]
    head = ['    %s%s' % ('(' if n else '', test) for n, test in enumerate(tests)]
    return ['shape_by w ='] + head[:-1] + [head[-1] + ' Other' + ')' * (len(tests) - 1)]


# ---- producer: what goes on from a shape, and the laws that the proofs of methods rewrite by

def goes_on(k):
    return ' → '.join(['ℕ'] * len(k.parts) + ['W A'])


def each_shape(k, line):
    """A line for each shape: line(its pattern, whether it is k's)."""
    return [line(apart(other), other is k) for other in TAKEN] + [line('Other', False)]


@section(MACHINE, 'shapes')
def _():
    out = []
    for k in TAKEN:
        went = ' '.join(['f'] + vars_of(k))
        out += ['unfoldable pub on_%s : {A : Type 0} → Shape → (%s) → W A → W A' % (k.word, goes_on(k))]
        out += each_shape(k, lambda x, own: 'on_%s %s f z = %s' % (k.word, x, went if own else 'z')) + ['']
    for k in TAKEN:
        out += ['unfoldable pub at_%s : {A : Type 0} → ℕ → (%s) → W A → W A' % (k.word, goes_on(k)),
                'at_%s i f z = λ w. on_%s (shape_of w.cells i) f z w' % (k.word, k.word), '']
    return out[:-1]


@section(STEPS, 'shapes')
def _():
    names = ' '.join('%s_%s' % (step, k.word) for step in ('at', 'on') for k in TAKEN)
    return ['unfoldable pub shapes : Unit {0}', 'unfolding ' + names, 'shapes = tt']


@section(AT, 'shapes')
def _():
    out = []
    for k in TAKEN:
        name, parts = 'not_' + k.word, ' '.join(vars_of(k))
        out += ['pub %s : {A : Type 0} (x : Shape) → ((%s : ℕ) → x ≡ %s %s → ⊥) → (f : %s) (z : W A) → on_%s x f z ≡ z' % (
            name, parts, variant(k), parts, goes_on(k), k.word), 'unfolding on_' + k.word]
        out += each_shape(k, lambda x, own: '%s %s h f z = %s' % (name, x, 'absurd (h %s refl)' % parts if own else 'refl')) + ['']
    return out[:-1]


# ---- link: a term that is taken apart

@section(OPEN, 'no shape')
def _():
    return ['no_%s : %s t ≡ none' % (one_taken(k), k.taken) for k in TAKEN]


@section(OPEN, 'shapes')
def _():
    out = []
    for k in TAKEN:
        form = applied('form.' + variant(k), vars_of(k))
        if is_number(k):
            out.append('p_%s : {n : ℕ} → Parts xs %s (%s n)' % (k.word, form, k.node))
            continue
        held = ''.join("Cell %s (%s %s') xs → " % (v, p.sort, v) for p, v in parts_of(k))
        names = ' '.join(vars_of(k))
        primed = ' '.join(v + "'" for v in vars_of(k))
        out.append('p_%s : {%s : ℕ} {%s : Term} → %sParts xs %s (%s %s)' % (k.word, names, primed, held, form, k.node, primed))
    return out


@section(OPEN, 'kinds of cells')
def _():
    return ['kind_shown %s = refl' % shape(k) for k in TERMS]


@section(OPEN, 'kinds of bytes')
def _():
    return ['at_byte k_%s = refl' % k.tag for k in TERMS]


@section(OPEN, 'which shape')
def _():
    none = 'p_else (record { %s })' % '; '.join('no_%s = refl' % one_taken(k) for k in TAKEN)
    return ['parted q %s = %s' % (shape(k), ' '.join(['p_' + k.word] + list('xyz'[:len(cells(k.parts))])) if k.taken else none) for k in TERMS]


TAKING = '''\
module _ {A B : Type 0} {o : Before} {xs : List Thing} {Q : B → A → List Thing → Type 0} where
  taken : {i : ℕ} {t : Term} {d : M A} (f : Form → W B) → Cell i (term t) xs → ((p : Form) → Parts xs p t → Matches o xs (f p) d Q) → \
Matches o xs (λ w. f (shape_of w.cells i) w) d Q
  unfolding shape_of
  taken f c k = record { holds = λ w s e h. let r = read_cell tt c e h in \
rw r.words ((k (shape_by (cell_by r.kind r.a r.b r.c r.low)) (parted r.low r.shape)).holds w s e h) }
'''


def taking(k):
    """That a term is taken apart as this kind, or not."""
    vs, primed = vars_of(k), [v + "'" for v in vars_of(k)]
    if is_number(k):
        given, made = '(n : ℕ) → t ≡ %s n → ' % k.node, 'n'
    else:
        held = ''.join("Cell %s (%s %s') xs → " % (v, p.sort, v) for p, v in parts_of(k))
        given = '(%s : ℕ) (%s : Term) → t ≡ %s %s → %s' % (' '.join(vs), ' '.join(primed), k.node, ' '.join(primed), held)
        made = '(%s)' % ', '.join(primed)
    of = ' × '.join(NODE_TYPES[p.sort] for p in k.parts)
    goes = 'Matches o xs (%s) (g %s) Q' % (' '.join(['f'] + vs), made)
    name, on = 'at_' + k.word, 'C.on_' + k.word
    out = ['pub %s : {i : ℕ} {t : Term} {f : %s} {z : W B} (g : %s → M A) (y : M A) → Cell i (term t) xs → (%s%s) → Matches o xs z y Q → '
           % (name, goes_on(k).replace('A', 'B'), of, given, goes) + 'Matches o xs (C.%s i f z) (from %s t get g or y) Q' % (name, k.taken),
           'unfolding C.%s %s from◌get◌or◌' % (name, on),
           '%s {t = t} {f = f} {z = z} g y h k m = taken (λ p. %s p f z) h λ _ s. go refl s' % (name, on),
           '  where',
           '    go : {p : Form} {u : Term} → t ≡ u → Parts xs p u → Matches o xs (%s p f z) (from %s u get g or y) Q' % (on, k.taken)]
    holes = ['_'] * (1 if is_number(k) else 2 * len(vs))
    for other in TAKEN:
        parts = list('abc'[:len(cells(other.parts))])
        out.append('    go q %s = %s' % (applied('p_' + other.word, parts), ' '.join(['k'] + holes + ['q'] + parts) if other is k else 'm'))
    return out + ['    go q (p_else e) = rw e.no_%s m' % one_taken(k), '']


@section(OPEN, 'taken apart')
def _():
    return TAKING.split('\n') + [line and '  ' + line for k in TAKEN for line in taking(k)][:-1]
