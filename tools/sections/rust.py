"""The tools in Rust: the tables that the oracle and the comparison read, the oracle's nodes, the generator's terms."""
from . import common
from .common import (AHEAD_REFUSALS, AHEAD_RULES, AHEAD_TERMS, CALLS, CONTEXTS, COUNTS, INFERENCE, INTERVALS, JUDGMENTS, LIMITS, NOTE, REFUSALS,
                     parts_of, section, vars_of, whole)

# These tools know what stands ahead of the program too.
TERMS, RULES = common.TERMS + AHEAD_TERMS, common.RULES + AHEAD_RULES
ALL = TERMS + INTERVALS + CONTEXTS

TABLES, READER, CELLS = ['tools/oracle/src/%s.rs' % name for name in ('language', 'reader', 'cells')]
GENERATOR = 'tools/generator/src/kinds.rs'
WIDTH = 100


def block(head, lines, end='}'):
    return [head] + ['    ' + line for line in lines] + [end]


def filled(head, items, end):
    """On one line where that has room, else on lines of their own, as rustfmt sets them."""
    line = head + ', '.join(items) + end
    return [line] if len(line) <= WIDTH else block(head, [item + ',' for item in items], end)


# ---- the tables

def listed(items):
    return '&[%s]' % ', '.join(items)


def sorts(parts):
    return listed(p.sort.capitalize() for p in parts)


def places(parts, wanted):
    return listed(str(n + 1) for n, p in enumerate(parts) if wanted(p) and p.sort != 'number')


@section(TABLES, 'kinds')
def _():
    def line(k):
        sort = 'Term' if k in TERMS else 'Interval' if k in INTERVALS else 'Context'
        shown, cells = places(k.parts, lambda p: p.shown), places(k.parts, lambda p: True)
        return 'kind(%d, "%s", %s, %s, %s, %s),' % (k.byte, k.name, sort, sorts(k.parts), shown, cells)
    return block('pub const KINDS: &[Kind] = &[', map(line, ALL), '];') + ['', 'pub const INFERENCE: u32 = %d;' % INFERENCE]


@section(TABLES, 'judgments')
def _():
    return block('pub const JUDGMENTS: &[(&str, &[Sort])] = &[', ['("%s", %s),' % (j.name, sorts(j.parts)) for j in JUDGMENTS], '];')


@section(TABLES, 'rules')
def _():
    number = {j.name: j.number for j in JUDGMENTS}
    lines = ['("%s", %d),' % (r.name, number[r.judgment]) for r in RULES]
    return block('pub const RULES: [(&str, usize); %d] = [' % len(RULES), lines, '];')


@section(TABLES, 'calls and refusals')
def _():
    return ['pub const CALLS: [usize; %d] = [%s];' % (len(CALLS), ', '.join(str(len(c.terms)) for c in CALLS)),
            'pub const MANY: u8 = %d;' % next(c.code for c in CALLS if c.counted),
            'pub const LAST_REFUSAL: usize = %d;' % (LIMITS + REFUSALS + COUNTS + AHEAD_REFUSALS)[-1].number]


@section(TABLES, 'ahead of the program')
def _():
    return ['pub const AHEAD_KINDS: [u8; %d] = [%s];' % (len(AHEAD_TERMS), ', '.join(str(k.byte) for k in AHEAD_TERMS)),
            'pub const LANDED_RULES: usize = %d;' % len(common.RULES),
            'pub const LANDED_REFUSAL: usize = %d;' % (LIMITS + REFUSALS + COUNTS)[-1].number]


# ---- the oracle's nodes: the source's own constructors

# The source has names of its own for these.
SOURCE = {'I0': 'Zero', 'I1': 'One', 'Dim': 'Var'}


def source(kind, group):
    return '%s::%s' % (group, SOURCE.get(kind.node, kind.node) if group == 'Interval' else kind.node)


def of(constructor, arguments):
    return '%s(%s)' % (constructor, ', '.join(arguments)) if arguments else constructor


def nodes(kinds, group):
    def read(part):
        boxed = {'number': 'number', 'term': 'boxed', 'interval': 'interval' if group == 'Term' else 'side'}
        return 'self.%s()?' % boxed[part.sort]

    def cell(part, var):
        return '*n as u32' if part.sort == 'number' else 'self.%s(%s)?' % (part.sort, var)

    @section(READER, '%ss by their bytes' % group.lower())
    def _():
        return ['%d => %s,' % (k.byte, of(source(k, group), [read(p) for p in k.parts])) for k in kinds]

    @section(CELLS, 'cells of %ss' % group.lower())
    def _():
        def words(k):
            return ', '.join([str(k.byte)] + [cell(p, v) for p, v in parts_of(k)] + ['0'] * (3 - len(k.parts)))
        return ['%s => [%s],' % (of(source(k, group), vars_of(k)), words(k)) for k in kinds]


nodes(TERMS, 'Term')
nodes(INTERVALS, 'Interval')


@section(CELLS, 'other cells')
def _():
    return ['const %s: u32 = %d;' % (k.name.upper(), k.byte) for k in ALL if k in CONTEXTS]


# ---- the generator's terms

def variant(kind):
    return kind.name.capitalize()


def held(part, group):
    """A part's type inside a node of the group."""
    types = {'number': 'usize', 'term': 'Box<Term>', 'interval': 'Interval' if group == 'Term' else 'Box<Interval>'}
    return types[part.sort]


def enum(kinds, group):
    variants = [of(variant(k), [held(p, group) for p in k.parts]) + ',' for k in kinds]
    return ['#[derive(Clone, Debug, PartialEq, Eq)]'] + block('pub enum %s {' % group, variants) + ['']


def constructors(kinds, group):
    """A function for each kind whose parts are boxed."""
    out = []
    for k in (k for k in kinds if any('Box' in held(p, group) for p in k.parts)):
        arguments = ['%s: %s' % (v, p.sort.capitalize()) for p, v in parts_of(k)]
        boxed = ['Box::new(%s)' % v if 'Box' in held(p, group) else v for p, v in parts_of(k)]
        out += block('pub fn %s(%s) -> %s {' % (k.name, ', '.join(arguments), group), [of(variant(k), boxed)])
    return out


def method(said, head, kinds, arm):
    """A method with an arm for each kind: arm(kind) gives its pattern's variables and its value, as the parts of a line."""
    arms = []
    for k in kinds:
        variables, (before, items, after) = arm(k)
        arms += filled('%s => %s' % (of(variant(k), variables), before), items, after + ',')
    return ['/// ' + line for line in said] + head[:-1] + block(head[-1], block('match self {', arms))


def viewed(part, var):
    return 'Part::Number(*n)' if part.sort == 'number' else 'Part::%s(%s)' % (part.sort.capitalize() if part.shown else 'Hidden', var)


def parts_method(kinds):
    return method(['The byte of its kind, and its parts in order.'], ["pub fn parts(&self) -> (u8, Vec<Part<'_>>) {"], kinds,
                  lambda k: (vars_of(k), ('(%d, vec![' % k.byte, [viewed(p, v) for p, v in parts_of(k)], '])')))


def with_method(said, arguments, group, kinds):
    def through(part, var):
        binders = '%d, %d' % (part.under == 'variable', part.under == 'dimension')
        return {'number': '*n', 'interval': 'r(%s)' % var, 'term': 't(%s, %s)' % (var, binders)}[part.sort]

    def arm(k):
        made = [through(p, v) for p, v in parts_of(k)]
        name = k.name if any(p.sort != 'number' for p in k.parts) else variant(k)
        return vars_of(k), (name + '(', made, ')') if made else (name, [], '')
    head = filled('pub fn with(', ['&self'] + arguments, ') -> %s {' % group)
    return method(said, head, kinds, arm)


def terms_method():
    def arm(k):
        terms = [v for p, v in parts_of(k) if p.sort == 'term']
        return [v if v in terms else '_' for v in vars_of(k)], ('vec![', terms, ']')
    return method(['Its parts that are terms.'], ['pub fn terms(&mut self) -> Vec<&mut Term> {'], TERMS, arm)


def letters(name, numbers):
    """On one line, or broken as rustfmt does."""
    head, text = 'pub const %s: &[u8] =' % name, '&[%s];' % ', '.join(map(str, numbers))
    return [head + ' ' + text] if len(head + text) < WIDTH else [head, '    ' + text]


@whole(GENERATOR)
def _():
    bytes_ = sorted({c.code for c in CALLS} | {k.byte for k in TERMS + INTERVALS})
    t, r = 't: &dyn Fn(&Term, usize, usize) -> Term', 'r: &dyn Fn(&Interval) -> Interval'
    of_intervals = with_method(['With each part put through `r`.'], [r], 'Interval', INTERVALS)
    of_terms = with_method(['With each part put through `t`, which is told how many variables and how many',
                            'dimensions it stands under, or through `r`.'], [t, r], 'Term', TERMS)
    out = ['//! The kinds of terms and intervals, with what follows from their parts alone.', '//! ' + NOTE]
    out += ['use crate::term::Part;', 'use Interval::*;', 'use Term::*;', '']
    out += ['/// Every byte with a meaning: codes and kinds.']
    out += letters('LETTERS', bytes_) + ['']
    out += enum(INTERVALS, 'Interval') + enum(TERMS, 'Term')
    out += constructors(TERMS, 'Term') + constructors(INTERVALS, 'Interval') + ['']
    out += block('impl Interval {', parts_method(INTERVALS) + [''] + of_intervals) + ['']
    out += block('impl Term {', parts_method(TERMS) + [''] + of_terms + [''] + terms_method())
    return '\n'.join(line.rstrip() for line in out) + '\n'
