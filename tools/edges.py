#!/usr/bin/env python3
"""The cases of the program `edges`: runs on each side of an edge, and what they answer.

    python3 tools/edges.py cases  > crates/edges/stdin
    python3 tools/edges.py expect > crates/edges/stdout
    python3 tools/edges.py deep   > a run of one call that meets the nesting limit of 4,096

`expect` reads crates/edges/stdin and asks the oracle (tools/oracle/build.sh makes it) for each case. What is wanted of some cases
stands in SAID below: where the oracle says otherwise, nothing is written and the command fails. That words past the used ones stay
is docs/FORMAT.md's rule, and the oracle has no words: `stay` is written for all.

The last run has 1,586 bytes. With a table of 32,401 rows and a store of 19,723 cells it uses both up to the last, and the call is
refused with 19, deepest 4,096; a smaller table or store gives 18 or 20. `edges` has no room for it beside its table on a stack of
8 MB (crates/edges/src/main.rt): the program `deepest` plays it.
"""
import os
import subprocess
import sys

sys.dont_write_bytecode = True
from language import CALLS, INTERVALS, TERMS  # noqa: E402

ROOT = os.path.dirname(os.path.dirname(os.path.abspath(__file__)))
ORACLE = os.path.join(ROOT, 'target/oracle/release/oracle')
CASES = os.path.join(ROOT, 'crates/edges/stdin')

# The listing's slices in words: 682 rows, 2,048 cells, 4,096 answers.
LISTING = (16368, 16384, 16384)
# How many of the last calls of a run the program shows.
SHOWN = 8

# --- terms, as bytes


def node(kind):
    """A node of this kind: a function of its parts, or the byte alone where it has none."""
    def bytes_(*parts):
        assert len(parts) == len(kind.parts), kind.name
        return sum(([p] if sort.sort == 'number' else p for p, sort in zip(parts, kind.parts)), [kind.byte])
    return bytes_ if kind.parts else [kind.byte]


NODES = {kind.name: node(kind) for kind in TERMS + INTERVALS}
NAT, ZERO, I0, I1 = (NODES[name] for name in ('nat', 'zero', 'i0', 'i1'))
u, v, pi, lam, app, path, plam, papp = (NODES[name] for name in 'u v pi lam app path plam papp'.split())
dim, neg, meet, join = (NODES[name] for name in 'dim neg meet join'.split())
sigma, pair, fst, snd = (NODES[name] for name in 'sigma pair fst snd'.split())

# Bytes that are no code, no kind of a term, no kind of an interval: next to those that are.
NO_CODE = CALLS[-1].code + 1
NO_TERM, NO_INTERVALS = TERMS[-1].byte + 1, (INTERVALS[0].byte - 1, INTERVALS[-1].byte + 1)

# The code of a call with many types.
MANY = next(c.code for c in CALLS if c.counted)


def times(n, f, x):
    for _ in range(n):
        x = f(x)
    return x


def call(code, dims, context, terms):
    return [code, dims, len(context)] + sum(context, []) + sum(terms, [])


def many(dims, context, t, types):
    "one term and many types"
    return call(MANY, dims, context, [t, [len(types)]] + types)


def run(limit, *calls):
    return [limit % 256, limit // 256] + sum(calls, [])


# --- cases

cases = []


def say(text):
    cases.append(text)


def case(name, bytes_, slices=LISTING):
    cases.append((name, slices, list(bytes_)))


CHECK = call(3, 0, [], [ZERO, NAT])
FIRST = run(100, CHECK)


def at_the_edges():
    say('The calls of docs/FORMAT.md, "Calls at the edges".')
    case('first', FIRST)
    case('again', run(100, CHECK, CHECK))
    case('variable', run(100, call(2, 0, [NAT], [v(0)])))
    case('lambda', run(100, call(2, 0, [], [lam(NAT, v(0))])))
    case('beta', run(100, call(4, 0, [], [app(lam(NAT, v(0)), ZERO), NAT])))
    case('universe-of-zero', run(100, call(1, 0, [], [ZERO])))
    case('zero-at-u-0', run(100, call(3, 0, [], [ZERO, u(0)])))
    case('zero-at-path', run(100, call(3, 0, [], [ZERO, path(NAT, ZERO, ZERO)])))
    case('no-context', run(100, call(2, 0, [], [v(0)])))
    line = papp(plam(NAT, ZERO), dim(0))
    case('no-dimension', run(100, call(2, 0, [], [line])))
    case('one-dimension', run(100, call(2, 1, [], [line])))
    p = path(NAT, ZERO, ZERO)
    case('end-0', run(100, call(4, 0, [p], [papp(v(0), I0), NAT])))
    case('neg-i1', run(100, call(4, 0, [p], [papp(v(0), neg(I1)), NAT])))
    case('three-cells', FIRST, (16368, 24, 16384))
    case('limit-2', run(2, CHECK))
    case('header-alone', run(100))
    case('index-32', run(100, call(2, 0, [NAT] * 33, [v(32)])))
    case('index-33', run(100, call(2, 0, [NAT] * 33, [v(33)])))
    tall = lambda n: times(n, lambda t: pi(NAT, t), NAT)
    case('depth-32', run(100, call(1, 0, [], [tall(32)])))
    case('depth-33', run(100, call(1, 0, [], [tall(33)])))
    case('reductions-32', run(200, call(4, 0, [], [once_more(chain(15, ZERO)), NAT])))
    case('reductions-33', run(200, call(4, 0, [], [chain(16, ZERO), NAT])))
    say('479 calls that fill 50,000 rows; the table has room for two more. The last calls: a known judgment, then a new one.')
    case('rows-50000', filled(), (50002 * 24, 305152, 2048))


def once_more(t):
    return app(lam(NAT, v(0)), t)


def chain(n, end):
    "comes to the end, which has no free variable, by 1 + 2 n root reductions"
    twice = lam(NAT, app(lam(NAT, v(0)), v(0)))
    return app(lam(pi(NAT, NAT), times(n, lambda t: app(v(0), t), end)), twice)


def filled():
    tall = times(30, lambda t: lam(NAT, t), ZERO)
    fill = [call(2, d, [], [lam(u(level), tall)]) for d in range(34) for level in range(14)]
    return run(4096, CHECK, *fill, CHECK, call(2, 0, [], [u(30)]))


def slices():
    say('Slices of exactly enough, one word short and none. Refusals 1 and 4.')
    for rows in (48, 47, 24, 23, 0):
        case('rows-%d' % rows, FIRST, (rows, 16384, 16384))
    for cells in (32, 31, 24, 16, 8, 7, 0):
        case('cells-%d' % cells, FIRST, (16368, cells, 16384))
    for answers in (4, 3, 0):
        case('answers-%d' % answers, FIRST, (16368, 16384, answers))
    case('answers-8', run(100, CHECK, CHECK), (16368, 16384, 8))
    case('answers-7', run(100, CHECK, CHECK), (16368, 16384, 7))
    case('no-calls-no-answers', run(100), (24, 8, 0))
    case('all-just-enough', FIRST, (48, 32, 4))
    case('all-none', FIRST, (0, 0, 0))
    say('A table that is full: a known judgment answers, a new one is 18, and a known one answers still.')
    case('table-of-two', run(100, CHECK, CHECK, call(2, 0, [], [NAT]), CHECK), (48, 16384, 16384))
    say('A store that is full: what is remembered answers, a new cell is 20.')
    case('store-of-four', run(100, CHECK, CHECK, call(2, 0, [], [u(0)]), CHECK), (16368, 32, 16384))
    say('A type that is found takes its cell before its row: with no room for either it is 20, and 18 where the store has one more.')
    variable = run(100, call(2, 0, [NAT], [v(0)]))
    case('cell-before-row', variable, (24, 32, 4))
    case('then-row', variable, (24, 40, 4))


def whole_runs():
    say('Refusal 2, which goes after 1 and before 3. The longest run has 65,536 bytes.')
    longest = run(100, *([call(1, 0, [], [NAT])] * 2 + [call(0, 0, [], [])] * 21842))
    case('bytes-65536', longest, (16368, 16384, 87376))
    case('bytes-65537', longest + [0], (16368, 16384, 87376))
    case('bytes-65537-no-kind', [100, 0] + [9] * 65535)
    case('one-before-two', [100, 0] + [9] * 65535, (23, 16384, 16384))
    say('Refusal 3: the run ends early (its length), or its limit is outside 1 to 4,096 (0).')
    case('nothing', [])
    case('half-header', [100])
    case('limit-0', run(0))
    case('limit-1', run(1))
    case('limit-4096', run(4096))
    case('limit-4097', run(4097))
    case('limit-65535', run(65535))
    for n in range(1, 5):
        case('ends-%d' % (2 + n), FIRST[:2 + n])
    case('ends-in-context', [100, 0, 0, 0, 2, 3])
    case('ends-in-number', [100, 0, 2, 0, 0, 2])
    case('ends-in-interval', [100, 0, 2, 0, 0, 10, 4, 20, 16])
    case('ends-in-dim', [100, 0, 2, 0, 0, 10, 4, 18])
    case('ends-in-second-call', run(100, CHECK) + [1, 0])
    say('Refusal 3: a byte that is no code or kind for its spot (its offset): a code, a kind of a type, of a term, of an interval.')
    case('code-%d' % NO_CODE, [100, 0, NO_CODE, 0, 0])
    case('code-255', [100, 0, 255])
    case('second-code', run(100, CHECK) + [NO_CODE])
    for kind in (0, NO_TERM, I0[0], 255):
        case('term-kind-%d' % kind, [100, 0, 2, 0, 0, kind])
    case('context-kind', [100, 0, 0, 0, 2, 3, 17])
    case('second-term', [100, 0, 3, 0, 0, 4, 0])
    for kind in NO_INTERVALS + (ZERO[0],):
        case('interval-kind-%d' % kind, [100, 0, 2, 0, 0, 10, 4, kind])
    case('inner-interval-kind', [100, 0, 2, 0, 0, 10, 4, 21, 16, 3])
    say('The leftmost place wins; the limit goes first. 3 goes before 4, and 1 before all.')
    case('limit-before-code', [0, 0, 9])
    case('kind-before-end', [100, 0, 3, 0, 0, NO_TERM])
    case('end-before-nothing', [100, 0, 3, 0, 0, 5, 3])
    case('three-before-four', [100, 0, NO_CODE], (16368, 16384, 0))
    case('one-before-three', [0, 0, NO_CODE], (16368, 7, 0))
    case('four-before-five', run(100, call(0, 34, [], [])), (16368, 16384, 3))


def call_limits():
    say('Refusal 5, which goes before 6 and 7; other calls go on.')
    for n in (33, 34, 255):
        case('dimensions-%d' % n, run(100, call(0, n, [], []), CHECK))
    for n in (33, 34, 255):
        case('context-%d' % n, run(100, call(0, 0, [NAT] * n, []), CHECK))
    case('five-before-seven', run(100, call(2, 34, [], [v(33)])))
    say('Refusals 6 and 7 are found in one walk, a node\'s own 6 first.')
    spine = lambda n, leaf: times(n, lambda t: pi(t, NAT), leaf)
    case('level-32', run(100, call(2, 0, [], [u(32)])))
    case('level-33', run(100, call(2, 0, [], [u(33)])))
    case('dim-32', run(100, call(2, 33, [], [papp(plam(NAT, ZERO), dim(32))])))
    case('dim-33', run(100, call(2, 33, [], [papp(plam(NAT, ZERO), dim(33))])))
    case('depth-32-of-interval', run(100, call(2, 0, [], [papp(ZERO, times(31, neg, I0))])))
    case('depth-33-of-interval', run(100, call(2, 0, [], [papp(ZERO, times(32, neg, I0))])))
    case('seven-at-depth-32', run(100, call(1, 0, [], [spine(32, u(33))])))
    case('six-at-depth-33', run(100, call(1, 0, [], [spine(33, u(33))])))
    case('seven-before-six', run(100, call(1, 0, [u(33)], [spine(33, NAT)])))
    say('10,000 nodes pass (the walk then refuses), 10,001 do not: trees of 8,191, 1,023, 511, 255, 15, 3, 1 and 1 nodes.')
    tree = lambda n: ZERO if n == 0 else app(tree(n - 1), tree(n - 1))
    trees = [tree(n) for n in (12, 9, 8, 7, 3, 1, 0, 0)]
    case('nodes-10000', run(100, call(0, 0, trees, [])))
    case('nodes-10001', run(100, call(0, 0, trees + [ZERO], [])))


def walks():
    say('Refusals 9, 10, 14; 15 goes before 14.')
    case('no-function', run(100, call(2, 0, [], [app(ZERO, ZERO)])))
    case('no-path', run(100, call(2, 0, [], [papp(ZERO, I0)])))
    hidden = app(lam(NAT, NAT), ZERO)
    case('another-type', run(100, call(4, 0, [], [once_more(ZERO), hidden])))
    elsewhere = app(lam(hidden, v(0)), ZERO)
    case('fourteen-at-32', run(200, call(4, 0, [], [chain(15, elsewhere), NAT])))
    case('fifteen-at-33', run(200, call(4, 0, [], [once_more(chain(15, elsewhere)), NAT])))
    say('32 nested conversions pass, a 33rd is 16; then by binders. Conversions that were refused do not count on.')
    case('conversions-32', run(4096, wrapped(15, 14, 2)))
    case('conversions-33', run(4096, wrapped(15, 14, 3)))
    over = app(lam(NAT, NAT), v(0))
    binders = lambda n: call(2, 0, [NAT] + [over] * n, [lam(over, app(lam(NAT, ZERO), v(0)))])
    case('binders-31', run(4096, binders(31)), (90000, 16384, 64))
    case('binders-32', run(4096, binders(32)), (90000, 16384, 64))
    case('refused-conversions', run(4096, *[call(3, 0, [], [ZERO, u(0)])] * 40, wrapped(15, 14, 2)))
    say('Memory is keyed on annotations; quotes and judgments are not. A refused call leaves its rows.')
    case('annotations-differ', run(100, call(2, 0, [], [lam(NAT, ZERO)]), call(2, 0, [], [lam(u(0), ZERO)])))
    case('annotations-hide', run(100, call(2, 0, [], [lam(NAT, ZERO)]), call(2, 0, [], [lam(hidden, ZERO)])))
    case('after-a-refusal', run(100, call(1, 0, [], [ZERO]), CHECK))
    say('The nesting limit: 1 and 3 met, and just enough.')
    case('limit-1-met', run(1, CHECK, call(0, 0, [], [])))
    case('limit-3-enough', run(3, CHECK))
    case('beta-limit-7', run(7, call(4, 0, [], [app(lam(NAT, v(0)), ZERO), NAT])))
    case('beta-limit-8', run(8, call(4, 0, [], [app(lam(NAT, v(0)), ZERO), NAT])))
    say('The limit met with a store that is full by then: 19, since the function past it needs no new cell. One cell less is 20, before.')
    case('limit-2-full-store', run(2, CHECK), (16368, 24, 16384))
    case('limit-2-one-cell-less', run(2, CHECK), (16368, 16, 16384))
    say('A call that nests more than 4,096 deep (see `deep` in tools/edges.py), with the limit 1,024.')
    case('limit-1024-met', run(1024, deep(7, 5, 5)), (12652 * 24, 7779 * 8, 4))
    say('The sample that README.md plays.')
    case('six-calls', open(os.path.join(ROOT, 'samples/six-calls'), 'rb').read())


def pairs():
    say('Pairs: their types and parts, 21 and 22; the second part at another type than its own is 14.')
    both = sigma(NAT, NAT)
    p = pair(both, ZERO, ZERO)
    case('pair', run(100, call(2, 0, [], [both]), call(2, 0, [], [p])))
    case('projections', run(100, call(2, 0, [], [fst(p)]), call(2, 0, [], [snd(p)])))
    case('parts', run(100, call(4, 0, [], [fst(p), NAT]), call(4, 0, [], [snd(p), NAT])))
    case('no-sigma', run(100, call(2, 0, [], [fst(ZERO)])))
    case('no-sigma-second', run(100, call(2, 0, [], [snd(u(0))])))
    case('no-annotation', run(100, call(2, 0, [], [pair(NAT, ZERO, ZERO)])))
    exposed = app(lam(u(0), v(0)), both)
    case('annotation-to-expose', run(100, call(2, 0, [], [pair(exposed, ZERO, ZERO)])))
    case('subject-to-expose', run(100, call(2, 0, [exposed], [fst(v(0))])))
    dependent = pair(sigma(u(0), v(0)), NAT, ZERO)
    case('second-at-its-type', run(100, call(4, 0, [], [snd(dependent), NAT]), call(4, 0, [], [snd(dependent), fst(dependent)])))
    case('no-pair-stays', run(100, call(4, 0, [both], [fst(v(0)), NAT])))
    case('no-eta', run(100, call(5, 0, [both], [v(0), pair(both, fst(v(0)), snd(v(0))), both])))
    hidden = app(lam(NAT, NAT), ZERO)
    case('pairs-with-one-quote', run(100, *[call(2, 0, [], [pair(sigma(NAT, b), ZERO, ZERO)]) for b in (NAT, hidden)]))
    case('depth-33-of-pairs', run(100, call(2, 0, [], [times(33, fst, ZERO)])))
    case('pair-ends-early', [100, 0, 2, 0, 0] + pair(both, ZERO, []))


def many_types():
    say('One term, many types: counts of 0, 1, 16, 17 and 255. A wrong count is one call with 23, which goes before 5.')
    for count in (0, 1, 16, 17, 255):
        case('types-%d' % count, run(100, many(0, [], ZERO, [NAT] * count), CHECK))
    case('no-type-no-scope', run(100, many(34, [], ZERO, []), many(0, [NAT] * 34, ZERO, [NAT] * 17)))
    say('Accepted and refused types mixed, the same type twice; a check before and after them.')
    again = run(100, many(0, [], ZERO, [NAT, u(0), NAT]))
    case('types-3', again)
    mixed = many(0, [], ZERO, [NAT, u(0), NAT, v(0), pi(NAT, NAT), app(lam(u(1), v(0)), NAT), NAT])
    case('types-mixed', run(100, CHECK, mixed, CHECK))
    case('types-mixed-limit-2', run(2, mixed))
    both = sigma(NAT, NAT)
    hidden = app(lam(NAT, NAT), ZERO)
    p = pair(both, ZERO, ZERO)
    exposed = app(lam(u(0), v(0)), both)
    case('types-of-a-pair', run(100, many(0, [], p, [both, NAT, sigma(NAT, hidden), exposed, both]), many(0, [], snd(p), [both, NAT])))
    say('Four answer words for each type: exactly enough, one word short, one type short. A wrong count has four.')
    for words in (28, 27, 24):
        case('types-answers-%d' % words, run(100, mixed), (16368, 16384, words))
    for words in (4, 3):
        case('types-255-answers-%d' % words, run(100, many(0, [], ZERO, [NAT] * 255)), (16368, 16384, words))
    say('A table or a store that is full inside such a call: a new row is 18, a new cell 20, and a known judgment answers still.')
    case('types-table-of-two', again, (48, 16384, 16384))
    case('types-store-of-four', again, (16368, 32, 16384))
    say('An early end in the types, before them and in the count; a byte that is no kind among them, also where the count is wrong.')
    for length in range(len(again) - 5, len(again)):
        case('types-end-%d' % length, again[:length])
    case('types-no-kind', again[:-1] + [NO_TERM])
    case('types-17-no-kind', run(100, many(0, [], ZERO, [NAT] * 16 + [[NO_TERM]])))
    case('types-17-end', run(100, many(0, [], ZERO, [NAT] * 17))[:-1])
    say('Limits for each type: 5 for all; 6 and 7 in the context or the term for all, in a type for that one; what all share goes first.')
    case('types-no-scope', run(100, many(34, [], ZERO, [NAT, NAT])))
    case('types-no-index', run(100, many(0, [v(33)], ZERO, [NAT, NAT]), many(0, [], v(33), [NAT, NAT]), many(0, [], ZERO, [v(33), NAT])))
    tall = times(33, lambda t: pi(NAT, t), NAT)
    case('types-no-depth', run(100, many(0, [tall], ZERO, [NAT, NAT]), many(0, [], tall, [NAT, NAT]), many(0, [], ZERO, [tall, NAT])))
    case('types-shared-first', run(100, many(0, [v(33)], ZERO, [tall, NAT]), many(0, [], tall, [v(33), NAT])))
    say('Nodes of types do not add up: 10,000 with one of them pass, 10,001 do not; the limit 1 ends the walk of those that pass.')
    tree = lambda n: times(n, lambda t: app(t, t), ZERO)
    case('types-nodes', run(1, many(0, [], tree(11), [tree(11), tree(11), tree(12), tree(11)])))
    case('types-nodes-10000', run(1, many(0, [tree(n) for n in (12, 9, 8, 7, 3, 1)], ZERO, [NAT, fst(ZERO), NAT])))
    say('The most calls that a run can have: types of one byte, 16 of them for five bytes more, and nine at the end.')
    # 49,930 have no room: those of 3,121 calls of code 6 take 65,535 bytes and the limit's two, and a context in a type's place two more.
    most = [many(0, [], ZERO, [NAT] * 16)] * 3120 + [many(0, [], ZERO, [NAT] * 9)]
    case('calls-49929', run(100, *most), (16368, 16384, 199716))
    case('calls-49929-answers-short', run(100, *most), (16368, 16384, 199715))


def long_ends():
    say('Long endpoints: decided by the left part, by the right one, by both; none; a plam, whose interval is not worked out.')
    p = path(NAT, ZERO, v(0))
    at = lambda r: call(4, 1, [NAT, p], [papp(v(0), r), NAT])
    case('by-one-part', run(100, at(meet(I0, dim(0))), at(join(dim(0), I1))))
    case('by-both-parts', run(100, at(join(I0, neg(I1))), at(meet(I1, neg(I0)))))
    case('no-end', run(100, at(dim(0)), at(meet(I1, dim(0)))))
    case('plam-at-neg-i1', run(100, call(4, 0, [], [papp(plam(NAT, ZERO), neg(I1)), NAT])))
    say('The deepest interval. A limit at which ten negs and their i1 can be typed and not worked out, and one more.')
    case('end-31-deep', run(100, at(times(31, neg, I0))))
    deep_end = papp(v(0), times(10, neg, I1))
    typed_first = [call(2, 0, [NAT, p], [deep_end]), call(4, 0, [NAT, p], [deep_end, NAT])]
    case('end-limit-12', run(12, *typed_first))
    case('end-limit-13', run(13, *typed_first))
    say('A dim is no endpoint, and is entered all the same: once the term is typed, ten negs and their dim are the deepest.')
    no_end = papp(v(0), times(10, neg, dim(0)))
    case('no-end-deepest', run(100, call(2, 1, [NAT, p], [no_end]), call(4, 1, [NAT, p], [no_end, NAT])))
    say('The rows of an end, of its equation and none of them fit; the end has another type at the interval as it is written.')
    for rows in (20, 21, 23, 24):
        case('end-rows-%d' % rows, run(100, call(4, 0, [path(NAT, ZERO, ZERO)], [papp(v(0), neg(I1)), NAT])), (24 * rows, 16384, 16384))
    line = lambda n, r: pi(papp(v(n), r), NAT)
    types = [path(u(0), NAT, NAT), line(0, I0), line(1, I1), path(line(2, dim(0)), v(1), v(0))]
    case('end-of-another-type', run(100, call(4, 0, types, [papp(v(0), neg(I1)), line(3, neg(I1))])))


def wrapped(*heights):
    "each annotation has to be converted inside the conversion of the next"
    bases = [NAT] + [app(lam(NAT, NAT), v(0))] * (len(heights) - 1)
    wrap = lambda n, base: times(n, lambda t: app(lam(t, NAT), ZERO), base)
    return call(0, 0, [wrap(n, base) for n, base in zip(heights, bases)], [])


def deep(steps, conversions, height):
    """A call with much nesting. The context has functions F 0 to F `steps`, then k : nat to nat, then q : for x of nat, F_last k x
    at i0. Each F gives, for k and x, a path from one type to nat: from the F before it, of 53 times k over x, at i0; F 0 from a type
    that has in it a plam of 52 times k over x, and comes to nat. So the type of q x comes to nat by root reductions, while a tower
    of k over x grows by 53 at each F; in the plam, with one dimension more, none of the tower's inferences is remembered, so that
    the whole of it is walked in one nesting, `check` in `infer` in `check`. What stands at the foot of a tower is q of another
    one: wanted at nat, it is converted there, inside. So the towers' nestings add up."""
    tower = lambda k, n, x: times(n, lambda t: app(v(k), t), x)
    room = lambda depth: 32 - depth

    def step(last):
        # k is v 1 and x is v 0; a tower as high as fits is bound to a name, under which k is v 2
        return app(lam(NAT, last), tower(1, room(4), v(0)))

    end = app(lam(NAT, NAT), papp(plam(NAT, tower(2, room(8), v(0))), I0))
    again = papp(app(app(v(3), v(2)), tower(2, room(7), v(0))), I0)
    over = lambda last: pi(pi(NAT, NAT), pi(NAT, path(u(0), step(last), NAT)))
    q = pi(NAT, papp(app(app(v(2), v(1)), v(0)), I0))
    context = [over(end)] + [over(again)] * steps + [pi(NAT, NAT), q]
    foot = times(conversions - 1, lambda t: tower(1, height, app(v(0), t)), tower(1, height, ZERO))
    return call(3, 0, context, [ZERO, papp(app(app(v(2), v(1)), foot), I0)])


# --- what is wanted: what docs/FORMAT.md says of the case, or what follows from its rules; the last four cases it does not have.
# Of a run: number, place, calls, rows, cells, repeats; then of its last call, or of its last two: number, row, result, deepest.

ANY = None
SAID = {
    'first': ((0, 0, 1, 2, 4, 0), (0, 1, '-', 3)),
    'again': ((0, 0, 2, 2, ANY, 1), (0, 1, '-', 2)),
    'variable': ((0, 0, 1, 6, ANY, 0), (0, 5, ANY, 5)),
    'lambda': ((0, 0, 1, 8, ANY, 0), (0, 7, '(pi nat nat)', 5)),
    'beta': ((0, 0, 1, 14, ANY, 0), (0, 13, 'zero', 8)),
    'universe-of-zero': ((0, 0, 1, 4, ANY, 0), (11, '-', '-', ANY)),
    'zero-at-u-0': ((0, 0, 1, ANY, ANY, 0), (12, '-', '-', ANY)),
    'zero-at-path': ((0, 0, 1, ANY, ANY, 0), (13, '-', '-', ANY)),
    'no-context': ((0, 0, 1, 1, ANY, 0), (8, '-', '-', ANY)),
    'no-dimension': ((0, 0, 1, ANY, ANY, 0), (17, '-', '-', ANY)),
    'one-dimension': ((0, 0, 1, ANY, ANY, 0), (0, ANY, 'nat', ANY)),
    'end-0': ((0, 0, 1, ANY, ANY, 0), (0, ANY, 'zero', ANY)),
    'neg-i1': ((0, 0, 1, 24, 18, 0), (0, 23, 'zero', 10)),
    'three-cells': ((0, 0, 1, 2, 3, 0), (20, '-', '-', ANY)),
    'limit-2': ((0, 0, 1, 0, ANY, 0), (19, '-', '-', 2)),
    'header-alone': ((0, 0, 0, 0, 0, 0),),
    'index-32': ((0, 0, 1, ANY, ANY, 0), (0, ANY, ANY, ANY)),
    'index-33': ((0, 0, 1, 0, 0, 0), (7, '-', '-', 0)),
    'depth-32': ((0, 0, 1, ANY, ANY, 0), (0, ANY, ANY, ANY)),
    'depth-33': ((0, 0, 1, 0, 0, 0), (6, '-', '-', 0)),
    'reductions-32': ((0, 0, 1, ANY, ANY, 0), (0, ANY, ANY, ANY)),
    'reductions-33': ((0, 0, 1, ANY, ANY, 0), (15, '-', '-', ANY)),
    'rows-50000': ((0, 0, 479, 50000, ANY, ANY), (0, 1, '-', 2), (18, '-', '-', ANY)),
    'parts': ((0, 0, 2, ANY, ANY, 0), (0, ANY, 'zero', ANY), (0, ANY, 'zero', ANY)),
    'no-sigma': ((0, 0, 1, ANY, ANY, 0), (21, '-', '-', ANY)),
    'no-sigma-second': ((0, 0, 1, ANY, ANY, 0), (21, '-', '-', ANY)),
    'no-annotation': ((0, 0, 1, 0, 4, 0), (22, '-', '-', 1)),
    'annotation-to-expose': ((0, 0, 1, 0, ANY, 0), (22, '-', '-', 1)),
    'subject-to-expose': ((0, 0, 1, ANY, ANY, 0), (0, ANY, 'nat', ANY)),
    'second-at-its-type': ((0, 0, 2, ANY, ANY, 0), (14, '-', '-', ANY), (0, ANY, 'zero', ANY)),
    'no-pair-stays': ((0, 0, 1, ANY, ANY, 0), (0, ANY, '(fst (v 0))', ANY)),
    'no-eta': ((0, 0, 1, ANY, ANY, 0), (13, '-', '-', ANY)),
    'depth-33-of-pairs': ((0, 0, 1, 0, 0, 0), (6, '-', '-', 0)),
    'types-0': ((0, 0, 2, 2, 4, 0), (23, '-', '-', 0), (0, 1, '-', 3)),
    'types-1': ((0, 0, 2, 2, 4, 1), (0, 1, '-', 3), (0, 1, '-', 2)),
    'types-16': ((0, 0, 17, 2, 4, 16), (0, 1, '-', 2), (0, 1, '-', 2)),
    'types-17': ((0, 0, 2, 2, 4, 0), (23, '-', '-', 0), (0, 1, '-', 3)),
    'types-255': ((0, 0, 2, 2, 4, 0), (23, '-', '-', 0), (0, 1, '-', 3)),
    'no-type-no-scope': ((0, 0, 2, 0, 0, 0), (23, '-', '-', 0), (23, '-', '-', 0)),
    'types-3': ((0, 0, 3, ANY, ANY, 1), (12, '-', '-', ANY), (0, 1, '-', 2)),
    'types-mixed': ((0, 0, 9, ANY, ANY, 4), (0, 1, '-', 2), (0, 1, '-', 2)),
    'types-of-a-pair': ((0, 0, 7, ANY, ANY, ANY), (13, '-', '-', ANY), (0, ANY, '-', ANY)),
    'types-answers-28': ((0, 0, 7, ANY, ANY, 2),),
    'types-answers-27': ((4, 0, 0, 0, 0, 0),),
    'types-answers-24': ((4, 0, 0, 0, 0, 0),),
    'types-255-answers-4': ((0, 0, 1, 0, 0, 0), (23, '-', '-', 0)),
    'types-255-answers-3': ((4, 0, 0, 0, 0, 0),),
    'types-table-of-two': ((0, 0, 3, 2, ANY, 1), (18, '-', '-', ANY), (0, 1, '-', 2)),
    'types-store-of-four': ((0, 0, 3, 2, 4, 1), (20, '-', '-', 1), (0, 1, '-', 2)),
    'types-no-kind': ((3, 10, 0, 0, 0, 0),),
    'types-17-no-kind': ((3, 23, 0, 0, 0, 0),),
    'types-17-end': ((3, 23, 0, 0, 0, 0),),
    'types-no-scope': ((0, 0, 2, 0, 0, 0), (5, '-', '-', 0), (5, '-', '-', 0)),
    'types-no-index': ((0, 0, 6, 2, 4, 0), (7, '-', '-', 0), (0, 1, '-', 3)),
    'types-no-depth': ((0, 0, 6, 2, 4, 0), (6, '-', '-', 0), (0, 1, '-', 3)),
    'types-shared-first': ((0, 0, 4, 0, 0, 0), (6, '-', '-', 0), (6, '-', '-', 0)),
    'types-nodes': ((0, 0, 4, 0, ANY, 0), (6, '-', '-', 0), (19, '-', '-', 1)),
    'types-nodes-10000': ((0, 0, 3, 0, ANY, 0), (6, '-', '-', 0), (19, '-', '-', 1)),
    'calls-49929': ((0, 0, 49929, 2, 4, 49928), (0, 1, '-', 2), (0, 1, '-', 2)),
    'calls-49929-answers-short': ((4, 0, 0, 0, 0, 0),),
    'by-one-part': ((0, 0, 2, ANY, ANY, 0), (0, ANY, 'zero', ANY), (0, ANY, '(v 1)', ANY)),
    'by-both-parts': ((0, 0, 2, ANY, ANY, 0), (0, ANY, 'zero', ANY), (0, ANY, '(v 1)', ANY)),
    'no-end': ((0, 0, 2, ANY, ANY, 0), (0, ANY, '(papp (v 0) (dim 0))', ANY), (0, ANY, '(papp (v 0) (meet i1 (dim 0)))', ANY)),
    'plam-at-neg-i1': ((0, 0, 1, ANY, ANY, 0), (0, ANY, 'zero', ANY)),
    'end-31-deep': ((0, 0, 1, ANY, ANY, 0), (0, ANY, '(v 1)', ANY)),
    'end-limit-12': ((0, 0, 2, ANY, ANY, 0), (0, ANY, 'nat', ANY), (19, '-', '-', 12)),
    'end-limit-13': ((0, 0, 2, ANY, ANY, 0), (0, ANY, 'nat', ANY), (0, ANY, '(v 1)', 13)),
    'no-end-deepest': ((0, 0, 2, ANY, ANY, 0), (0, ANY, 'nat', ANY), (0, ANY, ANY, 13)),
    'end-rows-20': ((0, 0, 1, 20, ANY, 0), (18, '-', '-', ANY)),
    'end-rows-21': ((0, 0, 1, 21, ANY, 0), (18, '-', '-', ANY)),
    'end-rows-23': ((0, 0, 1, 23, ANY, 0), (18, '-', '-', ANY)),
    'end-rows-24': ((0, 0, 1, 24, 18, 0), (0, 23, 'zero', 10)),
    'end-of-another-type': ((0, 0, 1, ANY, ANY, 0), (13, '-', '-', ANY)),
    'limit-2-full-store': ((0, 0, 1, 0, 3, 0), (19, '-', '-', 2)),
    'limit-2-one-cell-less': ((0, 0, 1, 0, 2, 0), (20, '-', '-', 1)),
    'limit-1-met': ((0, 0, 2, 1, ANY, 0), (0, 0, '-', 1)),
    'limit-1024-met': ((0, 0, 1, ANY, ANY, 0), (19, '-', '-', 1024)),
}


def fits(said, got):
    return all(s is ANY or s == g for s, g in zip(said, got))


# --- the cases as text: bytes in decimal; K*N stands for N more bytes, each the one that is K before it


def packed(data):
    out, i = [], 0
    while i < len(data):
        back, most = 0, 0
        for k in list(range(1, min(i, 200) + 1)) + [k for k in (255, 511, 1023, 2047, 4095) if k <= i]:
            n = 0
            while i + n < len(data) and data[i + n] == data[i + n - k]:
                n += 1
            if n > most:
                back, most = k, n
        if 6 <= most:
            out.append('%d*%d' % (back, most))
            i += most
        else:
            out.append(str(data[i]))
            i += 1
    return ' '.join(out)


def unpacked(words):
    out = []
    for word in words:
        if '*' in word:
            back, n = map(int, word.split('*'))
            for _ in range(n):
                out.append(out[-back])
        else:
            out.append(int(word))
    return bytes(out)


HEAD = """\
# Runs on each side of an edge. Made by tools/edges.py, which says what each is for; crates/edges/stdout has what they answer.
# A line is a case: its name, the words lent of the row table, of the cell store and of the answers, then the run's bytes in
# decimal. K*N stands for N more bytes, each the one that is K before it."""


def write_cases():
    for part in (at_the_edges, slices, whole_runs, call_limits, walks, pairs, many_types, long_ends):
        part()
    print(HEAD)
    names = set()
    for c in cases:
        if isinstance(c, str):
            print('\n# ' + c)
            continue
        name, (rows, cells, answers), data = c
        assert name not in names and unpacked(packed(data).split()) == bytes(data), name
        names.add(name)
        print(('%s %d %d %d %s' % (name, rows, cells, answers, packed(data))).rstrip())


# --- what the oracle says


def answered(slices, data):
    "the six numbers of a run, and the lines of its calls"
    words = ['--rows', slices[0], '--cells', slices[1], '--answers', slices[2]]
    done = subprocess.run([ORACLE, 'list'] + words, input=data, stdout=subprocess.PIPE, check=True)
    lines = done.stdout.decode().splitlines()
    if lines[0] == 'number place':
        number, place = map(int, lines[1].split())
        return (number, place, 0, 0, 0, 0), []
    calls = lines[1:lines.index('row rule refs judgment')]
    rows, cells, repeats = map(int, lines[-1].split())
    return (0, 0, len(calls), rows, cells, repeats), calls


def fields(line):
    _, number, row, rest = line.split(' ', 3)
    result, deepest = rest.rsplit(' ', 1)
    return (int(number), row if row == '-' else int(row), result, int(deepest))


def write_expected():
    out, left = [], set(SAID)
    for line in open(CASES):
        if line.startswith('#') or not line.strip():
            continue
        name, rows, cells, answers, *data = line.split()
        numbers, calls = answered((rows, cells, answers), unpacked(data))
        out.append('%s\nrun %s stay stay stay' % (name, ' '.join(map(str, numbers))))
        out += ['call ' + c for c in calls[-SHOWN:]]
        if name in SAID:
            left.remove(name)
            said = SAID[name]
            got = (numbers,) + tuple(fields(c) for c in calls[len(calls) + 1 - len(said):])
            if len(got) != len(said) or not all(map(fits, said, got)):
                sys.exit('%s: wanted is %s, the oracle has %s' % (name, said, got))
    if left:
        sys.exit('cases that are not there: %s' % sorted(left))
    print('\n'.join(out))


if __name__ == '__main__':
    write_deep = lambda: sys.stdout.buffer.write(bytes(run(4096, deep(7, 5, 5))))
    modes = {'cases': write_cases, 'expect': write_expected, 'deep': write_deep}
    if len(sys.argv) != 2 or sys.argv[1] not in modes:
        sys.exit(__doc__)
    modes[sys.argv[1]]()
