"""docs/FORMAT.md: the lists of calls, kinds, refusals, judgments and rules."""
import re

from .common import CALLS, COUNTS, INTERVALS, JUDGMENTS, LIMITS, REFUSALS, RULES, RUN_REFUSALS, TERMS, section

FORMAT = 'docs/FORMAT.md'


def node(k):
    return ' '.join([k.name] + [p.name for p in k.parts])


@section(FORMAT, 'calls')
def _():
    return ['| code | call | terms | enters |', '|---|---|---|---|'] + [
        '| %d | %s | %s | `%s` |' % (c.code, c.name, ', '.join(c.terms + ['a count, that many types'] * c.counted) or 'none', c.enters) for c in CALLS]


@section(FORMAT, 'kinds')
def _():
    rows = ['| kind | term | | kind | interval |', '|---|---|---|---|---|']
    for n, t in enumerate(TERMS):
        i = INTERVALS[n] if n < len(INTERVALS) else None
        hidden = [p.name for p in t.parts if not p.shown]
        note = ' (%s the annotation)' % hidden[0] if hidden else ''
        rows.append('| %d | %s%s | | %s | %s |' % (t.byte, node(t), note, i.byte if i else '', node(i) if i else ''))
    return [re.sub(' +', ' ', r) for r in rows]


@section(FORMAT, 'refusals of a run')
def _():
    return ['| number | the run is refused because | place |', '|---|---|---|'] + [
        '| %d | %s | %s |' % (r.number, r.because, r.place) for r in RUN_REFUSALS]


@section(FORMAT, 'refusals of a call')
def _():
    return ['| number | the call is refused because |', '|---|---|'] + ['| %d | %s |' % (r.number, r.because) for r in LIMITS + REFUSALS + COUNTS]


@section(FORMAT, 'judgments')
def _():
    rows = ['| %d | %s | %s | %s |' % (j.number, j.name, ', '.join(p.name for p in j.parts), j.meaning) for j in JUDGMENTS]
    return ['| kind | judgment | arguments | says that |', '|---|---|---|---|'] + [row.replace("'", '′') for row in rows]


@section(FORMAT, 'rules')
def _():
    """Runs of rules with one first word, as `type.u nat zero`."""
    runs = []
    for r in RULES:
        head, rest = r.name.split('.', 1)
        if runs and runs[-1][0] == head and runs[-1][4] == r.judgment:
            runs[-1][2] = r.number
            runs[-1][3].append(rest)
        else:
            runs.append([head, r.number, r.number, [rest], r.judgment])
    return ['| numbers | rules | conclude |', '|---|---|---|'] + [
        '| %s | %s.%s | %s |' % (a if a == b else '%d to %d' % (a, b), head, ' '.join(rest), judgment) for head, a, b, rest, judgment in runs]
