#!/usr/bin/env python3
"""Writes what repeats the table of the language (tools/language.py): whole files, and marked sections of others.

    python3 tools/written.py            writes them again
    python3 tools/written.py --check    changes nothing; names each file that is not as it would be written, and fails

A section stands between a line that ends in `written by tools/written.py: NAME` and the line `end of NAME`, both comments. The `use` lines
are kept too: in a file with sections one that names the first of a group of names (as Universe) names all of it, and in any other file one
that names the first eight kinds of terms, since that file goes by cases over them.
What is written where: tools/sections, a file for each crate or tool. Run from anywhere; takes under a second.
"""
import glob
import os
import re
import sys

sys.dont_write_bytecode = True
sys.path.insert(0, os.path.dirname(os.path.abspath(__file__)))
from sections import common, docs, laws, link, link_tables, listed, order, program, rules, run, rust, schemas, search, shapes, syntax, walk  # noqa: E402

BEGIN = re.compile(r'^( *)(--|//|#|<!--) written by tools/written\.py: (.*?)( -->)?$')


def with_sections(path, old):
    """The file's text, with each of its sections written anew."""
    out, lines, left = [], iter(old.split('\n')), set(common.sections[path])
    for line in lines:
        out.append(line)
        begins = BEGIN.match(line)
        if not begins:
            continue
        indent, mark, name, close = begins.groups()
        if name not in left:
            sys.exit('%s: no section is named %s, or it stands twice' % (path, name))
        left.remove(name)
        end = indent + mark + ' end of ' + name + (close or '')
        last = None
        for skipped in lines:
            if skipped == end:
                break
            last = skipped
        else:
            sys.exit('%s: the section %s has no end' % (path, name))
        out += [indent + new if new else '' for new in common.sections[path][name]()]
        out += [''] * (last == '') + [end]  # where rt fmt sets the end off by a blank line, it stays
    if left:
        sys.exit('%s: no mark for %s' % (path, ', '.join(sorted(left))))
    return common.with_uses('\n'.join(out))


def main():
    check = sys.argv[1:] == ['--check']
    if sys.argv[1:] and not check:
        sys.exit(__doc__)
    os.chdir(os.path.join(os.path.dirname(os.path.abspath(__file__)), '..'))
    common.well_formed()
    bad = []
    others = glob.glob('crates/*/specs/**/*.antt', recursive=True) + glob.glob('crates/*/proofs/**/*.antt', recursive=True)
    for path in sorted(set(common.files) | set(common.sections) | set(others)):
        old = open(path, encoding='utf-8').read() if os.path.exists(path) else ''
        if path in common.files:
            new = common.files[path]()
        else:
            new = with_sections(path, old) if path in common.sections else common.with_uses(old, by_cases=True)
        if new != old:
            bad.append(path)
            if not check:
                os.makedirs(os.path.dirname(path), exist_ok=True)
                with open(path, 'w', encoding='utf-8') as f:
                    f.write(new)
    for path in bad:
        print('%s %s' % ('not as tools/written.py writes it:' if check else 'written:', path))
    sys.exit(1 if check and bad else 0)


main()
