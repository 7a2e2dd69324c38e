"""What checks print of cycles, in a copy of the crates: the goals, and the facts on the way to each."""
import os
import re
import shlex
import shutil
import subprocess
import sys
import tempfile

from .source import read, without_tactic

ANSWERED = re.compile(r'(^|-)(returns(-|$)|loop(-.*)?-preserved$)')


class Copy:
    "a copy of the crates, in which the functions of these cycles have no tactic, and the cycles no answers"

    def __init__(self, crate, cycles):
        self.cycles = cycles
        self.top = tempfile.mkdtemp(prefix='rattle-prove-')
        self.folder = os.path.join(self.top, crate.folder)
        shutil.copy('crates.txt', self.top)
        shutil.copytree('crates', self.top + '/crates', ignore=shutil.ignore_patterns('out', 'must-fail'))
        for path in crate.sources:
            text = read(path)
            for cycle in cycles:
                text = without_tactic(text, cycle.name)
            self.write(os.path.relpath(path, crate.folder), text)
        for cycle in cycles:
            if os.path.exists(os.path.join(self.folder, cycle.file)):
                os.remove(os.path.join(self.folder, cycle.file))

    def __enter__(self):
        return self

    def __exit__(self, *_):
        shutil.rmtree(self.top)

    def write(self, path, text):
        with open(os.path.join(self.folder, path), 'w', encoding='utf-8') as f:
            f.write(text)

    def check(self, *flags):
        "what a check prints"
        command = shlex.split(os.environ.get('RT', 'rt')) + ['check', *flags]
        return subprocess.run(command, cwd=self.folder, stdout=subprocess.PIPE, stderr=subprocess.STDOUT, text=True).stdout

    def goals(self):
        "cycle -> goal -> what its answer takes, in the order in which the check asks for answers"
        text, out = self.check(), {}
        for cycle in self.cycles:
            help = re.search(r'(?m)^help: write \./%s with .*\n((?:    .*\n)*)' % re.escape(cycle.file), text)
            asked = re.findall(r'(?m)^    (\S+)((?: \S+)*) = \?$', help.group(1)) if help else []
            out[cycle.name] = {goal: takes for goal, takes in asked if ANSWERED.search(goal)}
            if not out[cycle.name]:
                print('\n'.join(line[:400] for line in text.split('\n') if 'error' in line))
                sys.exit('the check asks for no answers of the cycle ' + cycle.name)
        return out

    def facts(self, goals):
        "cycle -> goal -> the steps on the way to it, in order, each with its fields"
        for cycle in self.cycles:
            holes = ['\npub %s : goal.%s\n%s%s = ?\n' % (goal, goal, goal, takes) for goal, takes in goals[cycle.name].items()]
            self.write(cycle.file, 'use %s as goal\n%s' % (cycle.module, ''.join(holes)))
        text, out = self.check('--allow-holes'), {}
        for cycle in self.cycles:
            out[cycle.name] = {}
            for goal, said in re.findall(r'(?m)^\./%s:\S+ goal \? in `(\S+)`\n((?:  .*\n)*)' % re.escape(cycle.file), text):
                out[cycle.name][goal] = steps(said, out[cycle.name])
            missed = [goal for goal in goals[cycle.name] if goal not in out[cycle.name]]
            if missed:
                sys.exit('the check says nothing of ' + ', '.join(missed))
        return out


def steps(said, above):
    "step -> its fields, of what is said of a goal; the start has no name. above: the steps of the goals above, which may be cited"
    first, lines = re.search(r'(?m)^  names you can use(?:, by step)?: *(.*)\n((?:    .*\n)*)', said).groups()
    out = {}
    for line in filter(None, [first] + [line.strip() for line in lines.split('\n')]):
        cited = re.match(r"as in `(\S+)` above(?:, as far as c\.?([\w'-]*))?$", line)
        step = re.match(r"c\.?([\w'-]*): (?:same as c\.([\w'-]+)$|(.*))", line)
        if cited:
            goal, last = cited.groups()
            names = list(above[goal])
            out.update({name: above[goal][name] for name in names[:names.index(last) + 1 if last is not None else None]})
        elif step:
            name, same, fields = step.groups()
            out[name] = out[same] if same else re.findall(r'\.([\w-]+)', re.sub(r'\{.*?\}', '', fields))
        elif not line.startswith(("Rattle's own names", 'the goal has names')):
            sys.exit('what the check prints is not known: ' + line)
    return out
