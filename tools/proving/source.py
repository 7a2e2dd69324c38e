"""What the sources say: the cycles of calls, their functions, and what the answers of a function unfold."""
from collections import namedtuple
import glob
import os
import re

from .answers import OTHERS, SHUT, UNFOLD

# Attributes, indentation, name and contract.
FUNCTION = re.compile(r'((?: *#\[.*\]\n)*)( *)(?:pub(?:\(crate\))? )?fn (\w+)\([^{]*?(?:ensures \{(.*)\}|\{)')

# A cycle of calls: the file of its answers, below the crate's folder; the module of its goals; its functions by name.
Cycle = namedtuple('Cycle', 'name file module functions')

# A function's contract, and where its file has names of specs from: name -> module.
Function = namedtuple('Function', 'contract named')


class Crate:
    def __init__(self, name):
        self.name = name
        self.folder = 'crates/' + name
        self.mark = '-- Made by tools/prove.py: to make it again, run `python3 tools/prove.py %s`.' % name
        self.sources = sorted(glob.glob(self.folder + '/src/**/*.rt', recursive=True))

    def module(self, path):
        "the name of a module below the crate's folder"
        return 'Rattle.%s.%s' % (self.name, path.replace('/', '.'))

    def cycles(self):
        "the cycles whose answers are written, or not there yet"
        out = []
        for path in sorted(glob.glob(self.folder + '/proofs/**/+*', recursive=True)):
            file = path + '/Answers.antt'
            if not os.path.exists(file) or read(file).startswith(self.mark):
                name, below = os.path.basename(path)[1:], os.path.relpath(path, self.folder)
                out.append(Cycle(name, below + '/Answers.antt', self.module(below + '/Goals'), self.functions(name)))
        return out

    def functions(self, cycle):
        out = {}
        for path in self.sources:
            text, named = read(path), {}
            for module, names in re.findall(r'(?m)^ghost use (\S+)\.\{(.*)\};', text):
                named.update({name: module for name in names.split(', ')})
            for attributes, _, name, contract in FUNCTION.findall(text):
                if is_member(cycle, name, attributes):
                    out[name] = Function(contract, named)
        return out

    def own(self):
        "name -> module, of what the crate's specs define and the proofs have to unfold"
        out = {}
        for path in sorted(glob.glob(self.folder + '/specs/**/*.antt', recursive=True)):
            module = self.module(os.path.relpath(path, self.folder)[:-len('.antt')])
            out.update({name: module for name in unfoldable(module)})
        return out

    def steps(self):
        "the names of proofs/Steps that answers unfold, and what these unfold"
        text = read(self.folder + '/proofs/Steps.antt')
        return [name for name in ('steps', 'stated') if 'pub %s :' % name in text], words(' '.join(re.findall(r'(?m)^unfolding (.*)$', text)))

    def unfolds(self, name, function):
        "name -> module, of what the answers of a function unfold: what its contract names, the body that it enters, what is by hand"
        said, own, entered = words(function.contract), self.own(), enters(function)
        out = {word: function.named[word] for word in said if word in unfoldable(function.named.get(word, '')) and word not in SHUT}
        if entered and entered[0] + '_body' in own:
            out[entered[0] + '_body'] = own[entered[0] + '_body']
        out.update({word: OTHERS.get(word) or own[word] for word in UNFOLD.get(name, '').split()})
        if 'machine' in said:
            names, steps = self.steps()
            out = {word: module for word, module in out.items() if word not in steps}
            out.update({name: self.module('proofs/Steps') for name in names})
        return out


def read(path):
    with open(path, encoding='utf-8') as f:
        return f.read()


def words(text):
    return re.findall(r"[A-Za-z_][\w']*", text)


def unfoldable(module):
    "the names that a module of a crate's specs marks so"
    m = re.match(r'Rattle\.(\w+)\.(specs\..*)', module)
    path = 'crates/%s/%s.antt' % (m.group(1), m.group(2).replace('.', '/')) if m else ''
    return re.findall(r'(?m)^ *unfoldable pub ([^\s:◌]+) :', read(path)) if os.path.exists(path) else []


def enters(function):
    "the reference function that a contract says it is, with the number of arguments of its law"
    m = re.search(r'≡ (?:\(callees left\)\.(\w+)|(\w+) left)(.*?)\(machine', function.contract)
    return (m.group(1) or m.group(2), len(m.group(3).split()) + 2) if m else None


def is_member(cycle, name, attributes):
    "whether a function is in a cycle; one that calls itself alone has the cycle's name and no attribute"
    return '#[cycle(%s)]' % cycle in attributes or name == cycle and '#[cycle(' not in attributes


def without_tactic(text, cycle):
    "a source, with no tactic at the cycle's functions"
    def one(m):
        attributes, indent, name, _ = m.groups()
        if not is_member(cycle, name, attributes):
            return m.group()
        kept = re.sub(r'(?m)^ *#\[tactic\(.*\)\]\n', '', attributes)
        return kept + indent + '#[tactic(none)]\n' + m.group()[len(attributes):]
    return FUNCTION.sub(one, text)
