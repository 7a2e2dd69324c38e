"""crates/link: what words stand for (Tables, whole), how they are read, and a clause for each kind or judgment where what is done is
the same for all. crates/producer: what makes a cell of each kind."""
from .common import (ALL, CONTEXTS, INTERVALS, JUDGMENTS, NODE_TYPES, TERMS, applied, cells, for_both, is_number, judgment, nested, node, parts_of,
                     section, vars_of)

SPECS, PROOFS = 'crates/link/specs/', 'crates/link/proofs/'
TABLE, ASKED, STORE, LINKED, OPEN = (SPECS + f + '.antt' for f in ('Table', 'Asked', 'Store', 'Linked', 'Open'))
BACK, CALLS = (PROOFS + f + '.antt' for f in ('Back', 'Calls'))
MACHINE = 'crates/producer/specs/Machine.antt'


def shape(k, letters='xyz', prefix='s_'):
    """A cell's shape as a pattern, with a variable for each part that is a cell."""
    return applied(prefix + k.word, [letters[n] for n, _ in enumerate(cells(k.parts))])


# ---- Machine: the cells of a kind

@section(MACHINE, 'cells of each kind')
def _():
    out = []
    for k in ALL:
        vs = vars_of(k)
        out += ['abbrev pub make_%s : %s' % (k.word, ' → '.join(['ℕ'] * len(vs) + ['W ℕ'])),
                '%s = intern %d %s' % (' '.join(['make_' + k.word] + vs), k.byte, ' '.join((vs + ['0'] * 3)[:3])), '']
    return out[:-1]


# ---- Table: how a cell and a row are read

def read_node(k, node_of, parts, at):
    """Each part by its reader, and what they make."""
    if is_number(k):
        return 'some (%s a)' % node_of
    letters = [('xyz'[n], 'abc'[n], p) for n, p in enumerate(k.parts) if p in parts]
    made = 'some ' + applied(node_of, [l[0] for l in letters])
    return nested(letters, lambda l, rest: '%s %s >>= λ %s. %s' % (at[l[2].sort], l[1], l[0], rest), made)


@section(TABLE, 'an interval')
def _():
    return ['interval_by at k_%s a b = %s' % (k.tag, read_node(k, k.node, k.parts, {'interval': 'at'})) for k in INTERVALS]


@section(TABLE, 'a quote')
def _():
    at = {'term': 'at', 'interval': 'iat'}
    return ['quote_by at iat k_%s a b c = %s' % (k.tag, read_node(k, k.name, [p for p in k.parts if p.shown], at)) for k in TERMS]


# The constructors of a thing, as Table names them.
THINGS = {'term': 'term', 'interval': 'S.interval', 'context': 'S.context'}


@section(TABLE, 'words of a cell')
def _():
    out = []
    for sort, kinds in (('term', TERMS), ('interval', INTERVALS), ('context', CONTEXTS)):
        for k in kinds:
            words = ['(some n)' if p.sort == 'number' else '(cell xs (%s %s))' % (THINGS[p.sort], v) for p, v in parts_of(k)]
            out.append('cell_words xs (%s %s) = four %d %s' % (THINGS[sort], node(k), k.byte, ' '.join((words + ['(some 0)'] * 3)[:3])))
    return out


READERS = {'term': 'a_quote', 'interval': 'an_interval', 'context': 'a_context'}


@section(TABLE, 'readings')
def _():
    out = []
    for j in JUDGMENTS:
        names = [p.name for p in j.parts]
        read = nested(cells(j.parts), lambda p, rest: '%s used C %s >>= λ %s. %s' % (READERS[p.sort], p.name, p.name, rest), 'some ' + judgment(j))
        out += ['unfoldable pub read_%s : Reads' % j.name, 'read_%s used C %s = %s' % (j.name, ' '.join((names + ['_'] * 5)[:5]), read), '']
    return out + ['unfoldable pub no_reading : Reads', 'no_reading used C a b c d e = none', '',
                  'abbrev pub readings : List Reads', 'readings = %s[]' % ''.join('read_%s ∷ ' % j.name for j in JUDGMENTS)]


# ---- Asked: the cells of what is sent

def build(k, sort):
    parts = [(p, v, 'xyz'[n]) for n, (p, v) in enumerate(parts_of(k))]
    if is_number(k) or not parts:
        return 'build_%s %s = %s' % (sort, node(k), ' '.join(['make_' + k.word] + vars_of(k)))
    made = ' '.join(['make_' + k.word] + [x for _, _, x in parts])
    return 'build_%s %s = %s' % (sort, node(k), nested(parts, lambda p, rest: 'build_%s %s >>= λ %s. %s' % (p[0].sort, p[1], p[2], rest), made))


for_both(ASKED, 'cells of an %s', build)


# ---- Calls: what is sent is counted

def building(k, sort):
    head = 'building_%s %s = ' % (sort, node(k))
    if is_number(k) or not k.parts:
        return head + 'counting nothing s_' + k.word
    held = {1: ['h'], 2: ['(cell_lift e h)', 'k'], 3: ['(cell_lift (extends_trans e f) h)', '(cell_lift f k)', 'l']}[len(k.parts)]
    binds = ''.join('bind (building_%s %s) λ _ _ _ %s. ' % (p.sort, v, x) for (p, v), x in zip(parts_of(k), ['_ h', 'e k', 'f l']))
    body = binds + 'counting nothing (%s)' % ' '.join(['s_' + k.word] + held)
    for _ in k.parts[1:]:
        body = 'split _ _ _ (%s)' % body
    return head + 'split_last _ _ (%s)' % body


for_both(CALLS, 'counting an %s', building)


# ---- Store: how a cell shows, and that all its parts have cells

@section(STORE, 'how a cell shows')
def _():
    out = []
    for k in ALL:
        parts = [l for l, p in zip('hij', cells(k.parts)) if p.shown]
        out.append('looks %s = %s' % (shape(k, 'hij'), ' '.join(['l_' + k.word] + ['(low_of tt %s)' % l for l in parts])))
    return out


def known(k, sort):
    head = '%s_known %s h = ' % (sort, node(k))
    if is_number(k) or not k.parts:
        return head + 'one h'
    out, tail = '', 'p'
    for p, v in parts_of(k):
        part = '(%s_known %s (known_head %s))' % (p.sort, v, tail)
        out = '(known_append %s %s)' % (out, part) if out else part
        tail = '(known_tail %s)' % tail
    return head + 'let p = parts_known tt h in known_append %s (one h)' % out


for_both(STORE, 'parts of an %s', known)


# ---- Linked: what is made is counted

def groups(pairs, mark=''):
    """Binders of names with their types, one for names in a row with one type."""
    out = []
    for name, type_ in pairs:
        if out and out[-1][1] == type_:
            out[-1][0].append(name + mark)
        else:
            out.append([[name + mark], type_])
    return ' '.join('{%s : %s}' % (' '.join(ns), t) for ns, t in out)


def making(k, sort):
    whole_node = node(k) if is_number(k) else applied(k.node, [v + "'" for v in vars_of(k)])
    made = applied('make_' + k.word, vars_of(k))
    end = 'Matches o xs %s (count_all (of_%s %s)) (λ i _. Cell i (%s %s))' % (made, sort, whole_node, sort, whole_node)
    head = 'pub making_%s : ' % k.word
    if is_number(k):
        return '%s(n : ℕ) → %s\nmaking_%s n = counting nothing s_%s' % (head, end, k.word, k.word)
    if not k.parts:
        return '%s%s\nmaking_%s = counting nothing s_%s' % (head, end, k.word, k.word)
    held = list(zip('hkl', k.parts))
    parts = ''.join("Cell %s (%s %s') xs → " % (v, p.sort, v) for p, v in parts_of(k))
    binders = groups([(v, 'ℕ') for v in vars_of(k)]) + ' ' + groups([(v, NODE_TYPES[p.sort]) for p, v in parts_of(k)], "'")
    names, things = ' '.join(h for h, _ in held), ' with '.join('the_%s %s' % (p.sort, h) for h, p in held)
    return '%s%s → %s%s\nmaking_%s %s = counting (%s) (s_%s %s)' % (head, binders, parts, end, k.word, names, things, k.word, names)


@section(LINKED, 'making')
def _():
    out = []
    for sort, kinds in (('term', TERMS), ('interval', INTERVALS)):
        for k in kinds:
            out += making(k, sort).split('\n') + ['']
    return out[:-1]


# ---- Open: what is done is matched for each kind

def opening(sort, kinds, of, letter):
    def case(k):
        numbers = ' '.join(['q'] + vars_of(k))
        parts = '' if is_number(k) else groups([(v, NODE_TYPES[p.sort]) for p, v in parts_of(k)], "'").replace('{', '(').replace('}', ')')
        whole_node = node(k) if is_number(k) else applied(k.node, [v + "'" for v in vars_of(k)])
        held = '' if is_number(k) else ''.join("Cell %s (%s %s') xs → " % (v, p.sort, v) for p, v in parts_of(k))
        words = ' '.join((vars_of(k) + ['0'] * 3)[:3])
        return '    → ((%s : ℕ)%s → Node i q (%s %s) xs → %sMatches o xs (f (cell_by %d %s q)) (g %s) Q)' % (
            numbers, ' ' + parts if parts else '', sort, whole_node, held, k.byte, words, whole_node)

    def arm(k):
        n = len(cells(k.parts))
        holes = ['_'] * (1 if is_number(k) else 2 * n)
        return '    go q %s n = %s' % (shape(k), ' '.join(['on_' + k.tag, 'q'] + holes + ['n'] + list('xyz'[:n])))
    return [
        'pub opening_%s : {i : ℕ} {%s : %s} (g : %s → M A) → Cell i (%s %s) xs' % (sort, letter, of, of, sort, letter)
    ] + [case(k) for k in kinds] + [
        '    → Matches o xs (open_cell i f) (g %s) Q' % letter,
        'opening_%s {i = i} g h %s = opening tt h λ v s low. go v.quote s (record { cell = h; low = low })' % (
            sort, ' '.join('on_' + k.tag for k in kinds)),
        '  where',
        '    go : {k a b c : ℕ} {%s : %s} (q : ℕ) → Shape xs k a b c (%s %s) → Node i q (%s %s) xs' % (letter, of, sort, letter, sort, letter)
        + ' → Matches o xs (f (cell_by k a b c q)) (g %s) Q' % letter,
    ] + [arm(k) for k in kinds]


section(OPEN, 'opening an interval')(lambda: opening('interval', INTERVALS, 'Interval', 'r'))
section(OPEN, 'opening a term')(lambda: opening('term', TERMS, 'Term', 't'))


# ---- Back: a cell's words and its shape; what is read back from words

def of_sort(k):
    return 'term' if k in TERMS else 'interval' if k in INTERVALS else 'context'


@section(BACK, 'words of a shape')
def _():
    out = []
    for k in ALL:
        held = 'xyz'[:len(cells(k.parts))]
        out.append('shape_words %s = %s' % (shape(k), 'rw (%s)' % ', '.join('← cell_is ' + x for x in held) if held else 'refl'))
    return out


@section(BACK, 'shape of the words')
def _():
    out = []
    for k in ALL:
        places = ['first', 'second', 'third']
        numbers = ['some_is w.' + q for n, q in enumerate(places) if n >= len(k.parts) or k.parts[n].sort == 'number']
        held = ['(is_cell w.%s)' % q for q, p in zip(places, k.parts) if p.sort != 'number']
        facts = ['w.kind'] + numbers
        by = facts[0] if len(facts) == 1 else '(%s)' % ', '.join(facts)
        out.append('words_shape (%s %s) p e = let w = same_words e in rw %s %s' % (of_sort(k), node(k), by, applied('s_' + k.word, held)))
    return out


def back(k, sort, parts):
    """The parts that count, each by what is known of its own cell."""
    letters = [(l, m, p) for l, m, p in zip('xyz', 'pqr', cells(k.parts)) if p in parts]
    if not letters:
        return 'go ih at %s = refl' % shape(k)
    lets = ''.join('let %s = at _ _ %s in ' % (m, l) for l, m, _ in letters)

    def fact(m, p):
        if p.sort == sort:
            return 'ih _ _ (omega arith) %s.1' % m
        return 'lowered (%s_at f C) %s.0 (%s_back f _ _ (omega arith) %s.1)' % (p.sort, m, p.sort, m)
    return 'go ih at %s = %srw (%s)' % (shape(k), lets, ', '.join(fact(m, p) for _, m, p in letters))


@section(BACK, 'intervals')
def _():
    return [back(k, 'interval', k.parts) for k in INTERVALS]


@section(BACK, 'quotes')
def _():
    return [back(k, 'term', [p for p in k.parts if p.shown]) for k in TERMS]


READ = {'term': 'quote_read', 'interval': 'interval_read', 'context': 'context_read'}


@section(BACK, 'judgments')
def _():
    out = []
    for j in JUDGMENTS:
        held = [('h%d' % n, p) for n, p in enumerate(cells(j.parts))]
        proof = 'rw (%s)' % ', '.join('%s %s' % (READ[p.sort], h) for h, p in held) if held else 'refl'
        out.append('judgment_read %s = %s' % (applied('j_' + j.name, [h for h, _ in held]), proof))
    return out


@section(BACK, 'arguments')
def _():
    out = []
    for j in JUDGMENTS:
        held, facts = [], ['count_is = refl']
        for n, place in enumerate(['first', 'second', 'third', 'fourth', 'fifth']):
            p = j.parts[n] if n < len(j.parts) else None
            if p and p.sort != 'number':
                held.append('h%d' % len(held))
                facts.append('%s = low_is %s' % (place, held[-1]))
            else:
                facts.append('%s = refl' % place)
        out.append('told %s = record { %s }' % (applied('j_' + j.name, held), '; '.join(facts)))
    return out
