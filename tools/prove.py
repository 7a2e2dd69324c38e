#!/usr/bin/env python3
"""Writes the answers of a crate's cycles of calls, from what a check prints of them. Run from the top of the repository.

    python3 tools/prove.py CRATE [CYCLE..]    all the crate's cycles, or those of these names (as: producer typing)

A cycle has a folder `proofs/../+CYCLE/`. Its measures and loop invariants stand there in `Invariants.antt`, by hand; `Answers.antt` is
written. One without the mark `Made by` is left alone. Then run `rt fmt` and `rt check` in the crate's folder.

Answered is each goal that a function of the cycle returns what its definition says, and that a loop keeps its invariant: by one rewriting
with the facts on the way to it, in the order of the code. The other goals are left to the search. Two checks print what is needed, in a
copy of the crates where the cycles' functions have no tactic: the first the goals, the second, with a hole at each, the facts.

By hand is what neither says, in proving/answers.py: the names to unfold that no contract names, the operators of tests that are not named
after them, what a law says of a call, the laws of a loop. The laws themselves stand in the crate's proofs/At.antt.

The two checks of `producer` take two minutes where the crates below are proved. RT is the command to check with (default: rt)."""
import argparse
import os
import sys

sys.dont_write_bytecode = True
sys.path.insert(0, os.path.dirname(os.path.abspath(__file__)))
from proving import rewriting  # noqa: E402
from proving.printed import Copy  # noqa: E402
from proving.source import Crate  # noqa: E402


def main():
    words = argparse.ArgumentParser(description=__doc__, formatter_class=argparse.RawDescriptionHelpFormatter)
    words.add_argument('crate')
    words.add_argument('cycles', nargs='*')
    asked = words.parse_args()
    os.chdir(os.path.join(os.path.dirname(os.path.abspath(__file__)), '..'))
    crate = Crate(asked.crate)
    cycles = [cycle for cycle in crate.cycles() if not asked.cycles or cycle.name in asked.cycles]
    if not cycles or not set(asked.cycles) <= {cycle.name for cycle in cycles}:
        sys.exit('%s has no such cycle, or its answers are by hand' % crate.name)
    with Copy(crate, cycles) as copy:
        goals = copy.goals()
        facts = copy.facts(goals)
    for cycle in cycles:
        text = rewriting.answers(crate, cycle, goals[cycle.name], facts[cycle.name])
        with open(os.path.join(crate.folder, cycle.file), 'w', encoding='utf-8') as f:
            f.write(text)
        print('wrote %d answers: %s/%s' % (len(goals[cycle.name]), crate.folder, cycle.file))


main()
