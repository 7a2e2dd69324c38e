"""The program: kinds of cells and refusals (crates/ast), judgments and rules (crates/producer), with their numbers; and what it asks
of a kind, as a match on it, since a constant table would be made anew on the stack at each read."""
from .common import (ALL, CONTEXTS, INFERENCE, INTERVALS, JUDGMENTS, NOTE, RULED, RULES, TERMS, TRANSFORMS, antt_name, applied, camel, is_number, refusals,
                     section, whole)
from proving.rewriting import nested


# ---- Kinds and refusals (crates/ast): enums, and their numbers

# Each group of kinds: what it is said to be, and each kind's name and number.
KINDS = [
    ('Terms: the codes of docs/FORMAT.md.', [(camel(k.word), k.byte) for k in TERMS]),
    ('Intervals.', [(camel(k.word), k.byte) for k in INTERVALS]),
    ('Contexts: the empty one, and one with a last type and a rest.', [(camel(k.word), k.byte) for k in CONTEXTS]),
    ('A remembered inference.', [('Inference', INFERENCE)]),
]
EVERY_KIND = [pair for _, group in KINDS for pair in group]


def number_method(enum, has, law, pairs, other=('other', 'other.number')):
    """The method that gives a variant's number: the enum, what has the number, its definition, each variant with its number, and the number of
    what is none of these."""
    arms = ''.join('            %s::%s => %d,\n' % (enum, name, number) for name, number in pairs)
    arms += '            %s::Other(%s) => %s,\n' % (enum, *other)
    return f'''    // Its number, as {has} has it.
    #[tactic(auto, unfolding(crate::specs::{law}))]
    pub fn number(self) -> u32
        ensures {{ result ≡ {law.split('::')[1]} self }}
    {{
        match self {{
{arms}        }}
    }}
'''


def of_method(enum, law, pairs):
    """The method that gives the variant with a number: the enum, the definition of its numbers, each variant with its number."""
    arms = ''.join('            %d => %s::%s,\n' % (number, enum, name) for name, number in pairs)
    noun = enum.lower()
    return f'''    // The {noun} with the number.
    #[tactic(auto, unfolding(crate::specs::{law}))]
    pub fn of(number: u32) -> {enum}
        ensures {{ {law.split('::')[1]} result ≡ number }}
    {{
        match number {{
{arms}            _ => {enum}::Other(Other{enum} {{ number }}),
        }}
    }}

'''


def other_number(enum, none, uses):
    """The file of the numbers that no variant of an enum has: what those numbers are, and what that says uses."""
    noun = enum.lower()
    derives = 'Clone, Copy, Debug, PartialEq, Eq' if enum == 'Refusal' else 'Clone, Copy'
    return f'''// The numbers that no {noun} has.
// {NOTE}
ghost use Rattle.std.specs.Prelude.{{{', '.join(uses)}}};

// A number that is no {noun}'s. So a {noun} is one value alone, and who is promised its number is promised which it is.
#[derive({derives})]
pub struct Other{enum} {{
    pub number: u32,
    ghost none: {{ {none} }},
}}
'''


@whole('crates/ast/src/kinds.rt')
def _():
    variants = ''.join('    // %s\n%s' % (says, ''.join('    %s,\n' % name for name, _ in group)) for says, group in KINDS)
    arms = ''.join('            %d => Kind::%s,\n' % (number, name) for name, number in EVERY_KIND)
    return f'''// The kinds of cells.
// {NOTE}
ghost use Rattle.std.specs.Prelude.{{◌≡◌}};
ghost use Rattle.ast.specs.Kinds.{{kind_number, kind_of}};

// What a cell is.
#[derive(Clone, Copy, Debug, PartialEq, Eq)]
pub enum Kind {{
{variants}    // Any other number, which a word may be that was lent.
    Other(u32),
}}

impl Kind {{
    // The kind with the number.
    #[tactic(auto, unfolding(crate::specs::Kinds::kind_of, crate::specs::Kinds::kind_in, crate::specs::Kinds::kind_number))]
    pub fn of(number: u32) -> Kind
        ensures {{ result ≡ kind_of number }}
    {{
        match number {{
{arms}            _ => Kind::Other(number),
        }}
    }}

{number_method('Kind', 'a cell', 'Kinds::kind_number', EVERY_KIND, ('number', 'number'))}}}
'''


@whole('crates/ast/specs/Kinds.antt')
def _():
    numbers = '\n'.join('kind_number kind.%s = %d' % pair for pair in EVERY_KIND)
    every = ' ∷ '.join('kind.%s' % name for name, _ in EVERY_KIND)
    return f'''-- The kinds of cells and their numbers: a cell's first word. Assumes nothing.
-- {NOTE}
use Rattle.std.specs.Prelude.{{ℕ, List, [], ◌∷◌, ◌==◌}}
use Rattle.ast.specs.Words.{{ifb}}
use Rattle.ast.specs.declared.kinds.Kind.{{Kind}}
use Rattle.ast.specs.declared.kinds.Kind.TheVariants as kind

unfoldable pub kind_number : Kind → ℕ
{numbers}
kind_number (kind.Other n) = n

-- every kind that there is
abbrev pub every_kind : List Kind
every_kind = {every} ∷ []

-- the first of these with the number
unfoldable pub kind_in : List Kind → ℕ → Kind
kind_in [] n = kind.Other n
kind_in (k ∷ ks) n = ifb (n == kind_number k) k (kind_in ks n)

-- the kind with the number
unfoldable pub kind_of : ℕ → Kind
kind_of n = kind_in every_kind n
'''


def seen_values(noun, pairs):
    """Every value of an enum that has a name, and each value found by its number: what Alone asks of them."""
    enum = noun.capitalize()
    values = ['%s.%s' % (noun, name) for name, _ in pairs]
    back = 'found %s_number %s every_%s' % (noun, values[0], noun)
    return (['abbrev every_%s : List %s' % (noun, enum), 'every_%s = %s ∷ []' % (noun, ' ∷ '.join(values)), '',
             'seen : (x : %s) → Seen %s_number (%s) has Other%s.none-type other x' % (enum, noun, back, enum), 'unfolding %s_number found' % noun]
            + ['seen %s = inl (refl, refl)' % value for value in values] + ['seen (%s.Other o) = inr (o.number, o.none, refl)' % noun])


@section('crates/ast/proofs/Numbered.antt', 'kinds')
def _():
    named = ['named kind.%s = true' % name for name, _ in EVERY_KIND] + ['named (kind.Other n) = false']
    head = ['of_number : (k : Kind) → named k ≡ true → kind_of (kind_number k) ≡ k', 'unfolding kind_of kind_in kind_number']
    laws = ['of_number kind.%s h = refl' % name for name, _ in EVERY_KIND] + ['of_number (kind.Other n) h = absurd (true≢false (sym h))']
    return ['abbrev pub named : Kind → Bool'] + named + [''] + head + laws


# What the laws of a kind with a number need unfolded.
NUMBERED = ('kind_number', 'Rattle.ast.specs.Kinds')


def kind_answers(function, unfolded, start, arms, called=None):
    """The answers of a function that is a match on the kind with a number: the crate and the place of it; the names to unfold, each with its
    module; what to rewrite by first; the kinds that have an arm; the function that each arm calls."""
    crate = function.split('/')[0]
    module = 'Rattle.%s.proofs.%s' % (crate, '.'.join(function.split('/')[1:]))

    @whole('crates/%s/proofs/%s/Answers.antt' % (crate, '/'.join(function.split('/')[1:])))
    def _():
        names = ' '.join(name for name, _ in unfolded)
        out = ['-- ' + NOTE, 'use Rattle.std.proofs.Common.{◌≡◌, refl}']
        out += ['use %s.{%s}' % (m, ', '.join(n for n, where in unfolded if where == m)) for m in dict.fromkeys(m for _, m in unfolded)]
        out += ['use Rattle.ast.proofs.Numbered as law', 'use %s.Goals as goal' % module]
        unlike = ['law.kind_isnt _ c.of.ensures c.in_default.not-%s refl' % camel(k.word) for k in arms]
        calls = [['← c.%s%s.ensures' % (called, '-in-' + camel(k.word) if n else '')] if called else [] for n, k in enumerate(arms)]
        goals = [('in-' + camel(k.word), ['law.kind_is _ c.of.ensures c.in-%s.is' % camel(k.word)] + call) for k, call in zip(arms, calls)]
        goals += [('in_default', unlike)]
        for goal, facts in goals:
            out += ['', 'pub returns-%s : goal.returns-%s' % (goal, goal), 'unfolding ' + names]
            out += ['returns-%s c = %s' % (goal, nested(start + facts))]
        return '\n'.join(out) + '\n'


# Each group of refusals: each one's name, number, and what it says.
REFUSED = [[(camel(name), number, because) for number, name, because in group] for _, group in refusals()]


@whole('crates/ast/src/refusals.rt')
def _():
    groups = '\n'.join('\n'.join('    // %s.\n    %s,' % (because[0].upper() + because[1:], name) for name, _, because in group)
                       for group in REFUSED)
    numbers = [(name, number) for group in REFUSED for name, number, _ in group]
    return f'''// The refusals: of a whole run, of a call before it is walked, of a call where the walk stops.
// {NOTE}
ghost use Rattle.std.specs.Prelude.{{◌≡◌}};
ghost use Rattle.ast.specs.Refusals.{{refusal_number}};

use crate::others::OtherRefusal;

#[derive(Clone, Copy, Debug, PartialEq, Eq)]
pub enum Refusal {{
{groups}
    // Any other number.
    Other(OtherRefusal),
}}

impl Refusal {{
{of_method('Refusal', 'Refusals::refusal_number', numbers)}{number_method('Refusal', 'an answer', 'Refusals::refusal_number', numbers)}}}
'''


@section('crates/ast/proofs/Refused.antt', 'refusals')
def _():
    return seen_values('refusal', [(name, number) for group in REFUSED for name, number, _ in group])


@whole('crates/ast/src/others.rt')
def _():
    last = max(number for group in REFUSED for _, number, _ in group)
    return other_number('Refusal', '0 < number → %d < number' % last, ['◌<◌'])


@whole('crates/ast/specs/Refusals.antt')
def _():
    numbers = '\n'.join('refusal_number refusal.%s = %d' % (name, number) for group in REFUSED for name, number, _ in group)
    return f'''-- The program's refusals by their numbers. Assumes nothing.
-- {NOTE}
use Rattle.std.specs.Prelude.{{ℕ}}
use Rattle.ast.specs.declared.refusals.Refusal.{{Refusal}}
use Rattle.ast.specs.declared.refusals.Refusal.TheVariants as refusal

unfoldable pub refusal_number : Refusal → ℕ
{numbers}
refusal_number (refusal.Other o) = o.number
'''


# ---- Rules and judgments (crates/producer): enums, their numbers, and what a row has of them

PLACES = 'abcde'


def arguments(judgment):
    return ['x%d' % n for n in range(len(judgment.parts))]


def words(judgment, separator, gives):
    """The words of a row: the kind, how many arguments there are, and these, 0 past the last."""
    filled = arguments(judgment) + ['0'] * len(PLACES)
    pairs = [('kind', judgment.number), ('count', len(judgment.parts)), *zip(PLACES, filled)]
    return separator.join('%s%s%s' % (name, gives, value) for name, value in pairs)


@whole('crates/producer/src/codes.rt')
def _():
    rules = ''.join('    %s,\n' % camel(r.name) for r in RULES)
    numbers = [(camel(r.name), r.number) for r in RULES]
    judgments = ''.join('    // %s.\n    %s(%s),\n' % (j.meaning, camel(j.name), ', '.join(['u32'] * len(j.parts))) for j in JUDGMENTS)
    arms = ''
    for j in JUDGMENTS:
        fields = ''.join('                %s,\n' % field for field in words(j, '\n', ': ').split('\n'))
        arms += '            Judgment::%s(%s) => Words {\n%s            },\n' % (camel(j.name), ', '.join(arguments(j)), fields)
    return f'''// The rules and the judgments, with their numbers: docs/FORMAT.md.
// {NOTE}
ghost use Rattle.std.specs.Prelude.{{◌≡◌}};
ghost use Rattle.producer.specs.Judgments.{{rule_number, words_of}};

use crate::others::OtherRule;

// The rule of a row.
#[derive(Clone, Copy)]
pub enum Rule {{
{rules}    // Any other number.
    Other(OtherRule),
}}

impl Rule {{
{of_method('Rule', 'Judgments::rule_number', numbers)}{number_method('Rule', 'a row', 'Judgments::rule_number', numbers)}}}

// What a row states: of numbers, and of quotes by their lowest cells.
#[derive(Clone, Copy)]
pub enum Judgment {{
{judgments}}}

// A judgment as a row has it: its kind, how many arguments it has, and these; 0 past the last.
#[derive(Clone, Copy)]
pub struct Words {{
    pub kind: u32,
    pub count: u32,
    pub a: u32,
    pub b: u32,
    pub c: u32,
    pub d: u32,
    pub e: u32,
}}

impl Judgment {{
    #[tactic(auto, unfolding(crate::specs::Judgments::words_of))]
    pub fn words(self) -> Words
        ensures {{ result ≡ words_of self }}
    {{
        match self {{
{arms}        }}
    }}
}}
'''


@section('crates/producer/proofs/Ruled.antt', 'rules')
def _():
    return seen_values('rule', [(camel(r.name), r.number) for r in RULES])


@whole('crates/producer/src/others.rt')
def _():
    return other_number('Rule', '%d ≤ number' % len(RULES), ['◌≤◌'])


@whole('crates/producer/specs/Judgments.antt')
def _():
    rules = '\n'.join('rule_number rule.%s = R.%s' % (camel(r.name), antt_name(r)) for r in RULES)
    judgments = '\n'.join('words_of %s = record { %s }' % (applied('judgment.' + camel(j.name), arguments(j)), words(j, '; ', ' = ')) for j in JUDGMENTS)
    return f'''-- The program's rules by their numbers, its judgments by the words of a row, and the step that adds one. Assumes nothing.
-- {NOTE}
use Rattle.std.specs.Prelude.{{ℕ, List}}
use Rattle.walk.specs.Rule as R
use Rattle.ast.specs.Cells.{{Found}}
use Rattle.producer.specs.declared.codes.Rule.{{Rule}}
use Rattle.producer.specs.declared.codes.Rule.TheVariants as rule
use Rattle.producer.specs.declared.codes.Judgment.{{Judgment}}
use Rattle.producer.specs.declared.codes.Judgment.TheVariants as judgment
use Rattle.producer.specs.declared.codes.Words.{{Words}}
use Rattle.producer.specs.declared.rows.Refs.{{Refs}}
use Rattle.producer.specs.Machine.{{W, emit, find_row}}

unfoldable pub rule_number : Rule → ℕ
{rules}
rule_number (rule.Other o) = o.number

unfoldable pub words_of : Judgment → Words
{judgments}

unfoldable pub emit_words : ℕ → Refs → Words → W ℕ
emit_words n l w = emit n l w.kind w.count w.a w.b w.c w.d w.e

unfoldable pub emit_as : ℕ → Refs → Judgment → W ℕ
emit_as n l j = emit_words n l (words_of j)

unfoldable pub known_words : List ℕ → ℕ → Words → Found
known_words R n w = find_row R n w.kind w.a w.b w.c w.d w.e

-- the last row below n that states a judgment
unfoldable pub known_as : List ℕ → ℕ → Judgment → Found
known_as R n j = known_words R n (words_of j)
'''


# ---- Rules of the transforms, by kind (crates/producer)

@section('crates/producer/src/transforms.rt', 'rules of a kind')
def _():
    out = []
    for k in RULED:
        items = ['op'] + ['Rule::' + camel('%s.%s' % (t, k.tag)) for t in TRANSFORMS]
        arm = 'Kind::%s => by_op(' % camel(k.word)
        line = ', '.join(items)
        out += [arm + line + '),'] if len(line) <= 60 else [arm] + ['    %s,' % item for item in items] + ['),']
    return out


kind_answers('producer/transforms/rule_of',
             [('rule_of', 'Rattle.producer.specs.Transforms'), ('rule_number', 'Rattle.producer.specs.Judgments'), NUMBERED], [], RULED, 'by_op')


@section('crates/producer/specs/Transforms.antt', 'rules of a kind')
def _():
    rules = [(k, '(by_op op %s)' % ' '.join('R.%s_%s' % (t, k.tag) for t in TRANSFORMS)) for k in RULED]
    return ['rule_of op k = ' + tests(rules, '0')]


# ---- Parts: which show in a quote (crates/ast), how many follow a kind's byte (crates/run)

def place(n, want):
    """The kinds that have an n-th part, and one that is wanted."""
    return [k for k in ALL if n < len(k.parts) and want(k.parts[n])]


def shows(p):
    return p.shown and p.sort != 'number'


SHOWS = [
    ('hides_first', 'The first part is left out of the quote.', place(0, lambda p: not p.shown)),
    ('shows_first', 'The first part is a cell, and shows.', place(0, shows)),
    ('shows_second', 'The second part is.', place(1, shows)),
    ('shows_third', 'The third part is.', place(2, shows)),
]


@section('crates/ast/src/cells.rt', 'parts that show')
def _():
    out = []
    for name, says, kinds in SHOWS:
        out += ['// ' + says, '#[tactic(auto, unfolding(crate::specs::Cells::%s))]' % name, 'pub fn %s(kind: u32) -> bool' % name]
        out += ['    ensures { result ≡ %s kind }' % name]
        out += ['{', '    match Kind::of(kind) {']
        out += ['        Kind::%s => true,' % camel(k.word) for k in kinds] + ['        _ => false,', '    }', '}', '']
    return out[:-1]


for name, _, kinds_ in SHOWS:
    kind_answers('ast/cells/' + name, [(name, 'Rattle.ast.specs.Cells'), NUMBERED], [], kinds_)


def tests(pairs, other, test='eqb k %d'):
    """By the kind's number: nested tests, in the order of the program's match."""
    head, rest = 'ifb (%s) %s ' % (test % pairs[0][0].byte, pairs[0][1]), pairs[1:]
    return head + ('(%s)' % tests(rest, other, test) if rest else other)


@section('crates/ast/specs/Cells.antt', 'parts that show')
def _():
    out = []
    for name, _, kinds in SHOWS:
        out += ['unfoldable pub %s : ℕ → Bool' % name, '%s k = %s' % (name, tests([(k, 'true') for k in kinds], 'false', 'k == %d')), '']
    return out[:-1]


# What follows a kind's byte, with its number.
FOLLOWS = [(k, 2 if is_number(k) else [1, 3, 4, 5][len(k.parts)]) for k in TERMS + INTERVALS]
FOLLOW = {1: 'Nothing', 2: 'Number', 3: 'One', 4: 'Two', 5: 'Three'}


@section('crates/run/src/build.rt', 'what follows a kind')
def _():
    return ['Kind::%s => Some(Follows::%s),' % (camel(k.word), FOLLOW[n]) for k, n in FOLLOWS]


@section('crates/run/specs/Build.antt', 'what follows a kind')
def _():
    return ['parts_of k = ' + tests(FOLLOWS, '0')]


kind_answers('run/build/parts', [('parts_of', 'Rattle.run.specs.Build'), ('follows_number', 'Rattle.run.specs.Build'), NUMBERED], [],
             [k for k, _ in FOLLOWS])
