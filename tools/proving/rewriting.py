"""The answers: one rewriting with the facts on the way to a goal, in the order of the code."""
import re

from .answers import BEFORE, DIRECT, EQUATIONS, LAWS, LOOPS, RULED, TESTS
from .source import enters

CHUNK = 6  # entries in one rewriting: a longer one is nested


def answers(crate, cycle, goals, facts):
    "the text of a cycle's answers; goals: with what each answer takes; facts: with the steps on the way to each"
    body, unfolded, by_function = '', {}, {}
    for goal in goals:
        by_function.setdefault(function_of(cycle, goal), []).append(goal)
    for name, own in by_function.items():
        function = cycle.functions[name]
        unfolds = crate.unfolds(name, function)
        unfolded.update(unfolds)
        for goal in own:
            text = nested(entries(name, function, facts[goal]))
            if goal.endswith('-preserved'):
                text = '(omega arith, %s)' % text
            unfolding = 'unfolding %s\n' % ' '.join(unfolds) if unfolds else ''
            body += '\npub %s : goal.%s\n%s%s%s = %s\n' % (goal, goal, unfolding, goal, goals[goal], text)
    return '\n'.join([crate.mark] + uses(crate, cycle, body, unfolded)) + '\n' + body


def function_of(cycle, goal):
    "the function that a goal is of: its name stands first where the cycle has several"
    if len(cycle.functions) == 1:
        return list(cycle.functions)[0]
    return max((name for name in cycle.functions if goal.startswith(name + '-')), key=len)


def entries(name, function, steps):
    "the entries of a rewriting"
    out, read_as = [], None
    for step, fields in steps.items():
        at, kind = 'c.' + step, step.split('-')[0]
        if kind == 'if' or step.endswith('-test'):
            out.append(tested(name, function, step, 'true' if 'true' in fields else 'false'))
        elif kind == 'branch':
            out.pop()  # `?` looks at what the call before gives: the next step says of that what the call ensures
        elif kind == 'in_ok':
            out.append('← %s.ensures' % at)
        elif kind == 'in_err':
            refused = at
        elif kind == 'from_residual':
            out += ['law.residual _ _ %s.ensures.1' % at, '← %s.ensures' % refused]
        elif kind == 'of':
            read_as = at  # the arm says which kind it is
        elif kind in ('in', 'in_default') and read_as:
            out += of_kind(at, fields, read_as)
            read_as = None
        elif kind in ('in', 'in_default'):
            out += [at + '.is'] + [at + '.field-0-is' for field in fields if field == 'field-0-is'] if 'is' in fields else [unlike(at, fields)]
        elif kind == 'loop':
            out.append(at + '.invariant.1')
        elif kind in DIRECT:
            out.append(at + '.ensures')
        elif kind in LAWS:
            made = at
            out.append('%s %s.ensures' % (LAWS[kind], at))
        elif 'ensures' in fields:
            out += [BEFORE[name] for name in dict.fromkeys((kind, step)) if name in BEFORE]
            out += ['%s %s.ensures' % (RULED[kind], made)] if kind in RULED else []
            out.append('← %s.ensures' % at)
    return out


def of_kind(at, fields, read_as):
    "the entries for an arm of a `match` on the kind with a number"
    if 'is' in fields:
        return ['law.kind_is _ %s.ensures %s.is' % (read_as, at)]
    return ['law.kind_isnt _ %s.ensures %s.%s refl' % (read_as, at, field) for field in fields if field.startswith('not-')]


def unlike(at, fields):
    "the entry for an enum that is not of the one variant that is taken apart"
    field = [field for field in fields if field.startswith('not-')][0]
    return 'law.%s _ %s.%s' % (field.lower().replace('-', '_'), at, field)


def tested(name, function, step, side):
    "the entry for a test"
    at, entered = 'c.%s.%s' % (step, side), enters(function)
    if step.startswith('loop-'):
        return '%s %s' % (LOOPS[name][side == 'false'], at)
    if step == 'if-left-eq0' and entered:
        return 'law.%s_%s %s %s' % (entered[0], 'none' if side == 'true' else 'in', ' '.join(['_'] * entered[1]), at)
    operator = TESTS.get(step) or ('==' if '-eq' in step else '<' if '-lt' in step else None)
    return '%s _ _ %s' % (EQUATIONS[operator][side == 'false'], at) if operator else at


def nested(entries):
    "a rewriting of this many entries"
    if len(entries) <= CHUNK:
        return 'rw (%s)' % ', '.join(entries)
    return 'rw (%s)\n    (%s)' % (', '.join(entries[:CHUNK]), nested(entries[CHUNK:]))


def uses(crate, cycle, body, unfolded):
    "the `use` lines that the text and the names to unfold ask for"
    common = [name for name in ('◌≡◌', 'arith', 'refl') if re.search(r'%s' % name.strip('◌'), body)]
    tests = sorted({lemma for lemmas in EQUATIONS.values() for lemma in lemmas if lemma + ' ' in body})
    modules = {}
    for name, module in unfolded.items():
        modules.setdefault(module, []).append(name)
    steps = modules.pop(crate.module('proofs/Steps'), None)
    out = ['use Rattle.std.proofs.Common.{%s}' % ', '.join(common)] if common else []
    out += ['use borrow.Author.Tests.{%s}' % ', '.join(tests)] if tests else []
    out += ['use %s.{%s}' % (module, ', '.join(sorted(names))) for module, names in sorted(modules.items())]
    out += ['use %s as law' % crate.module('proofs/At')] if 'law.' in body else []
    out += ['use %s.{%s}' % (crate.module('proofs/Steps'), ', '.join(steps))] if steps else []
    return out + ['use %s as goal' % cycle.module]
