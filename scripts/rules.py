#!/usr/bin/env python3
"""Holds docs/RULES.md and the definitions together.

    scripts/rules.py           says what is wrong: a believed definition that names no clause, a tag without a clause, a clause that has
                               neither a definition nor a line "No definition", a line "Definitions" that is not current
    scripts/rules.py --write   writes the lines "Definitions", and then says what is still wrong
"""
import collections
import re
import sys

sys.dont_write_bytecode = True     # no files beside the scripts
from definitions import ROOT, believed, declared

RULES = ROOT / 'docs/RULES.md'
CLAUSE = re.compile(r'^- \*\*([A-Z]{1,2}\d+)\.\*\*')
WIDTH = 150


def wrapped(text):
    """A list item below a clause, in lines of the width."""
    lines, line = [], '  -'
    for word in text.split(' '):
        if len(line) + 1 + len(word) > WIDTH:
            lines.append(line)
            line = '   '
        line += ' ' + word
    return lines + [line]


def naming():
    """For each tag the definitions that name it, by file."""
    by_tag = collections.defaultdict(lambda: collections.defaultdict(list))
    for d in believed() + declared():
        for tag in d.tags:
            by_tag[tag][f'{d.crate}/{d.file}'].append(d.name)
    return by_tag


def definitions_line(files):
    parts = [f'{", ".join(f"`{n}`" for n in dict.fromkeys(names))} ({file})' for file, names in files.items()]
    return wrapped('Definitions: ' + '; '.join(parts))


def clauses(lines):
    """The clauses of the rule book: number, and the lines from its own to the last that belongs to it."""
    found, start, name = [], None, None
    for i, line in enumerate(lines + ['']):
        inside = line.startswith('  ') or (line == '' and i + 1 < len(lines) and lines[i + 1].startswith('  '))
        if start is not None and not inside:
            found.append((name, start, i))
            start = None
        match = CLAUSE.match(line)
        if match:
            start, name = i, match.group(1)
    return found


def without_definitions(block):
    """A clause's lines but for its line "Definitions", which may go on over several lines."""
    kept, skipping = [], False
    for line in block:
        if line.startswith('  - Definitions:'):
            skipping = True
        elif not (skipping and line.startswith('    ')):
            skipping = False
            kept.append(line)
    return kept


def main():
    lines = RULES.read_text(encoding='utf-8').splitlines()
    by_tag, book = naming(), clauses(lines)
    names = [name for name, _, _ in book]
    wrong, fresh, at = [], [], 0
    for name, start, end in book:
        kept = without_definitions(lines[start:end])
        excused = any(line.startswith('  - No definition:') for line in kept)
        if name in by_tag and excused:
            wrong.append(f'{name}: says "No definition", but definitions name it')
        if name not in by_tag and not excused:
            wrong.append(f'{name}: no definition names it')
        made = kept + (definitions_line(by_tag[name]) if name in by_tag else [])
        if made != lines[start:end] and '--write' not in sys.argv:
            wrong.append(f'{name}: the line "Definitions" is not current (scripts/rules.py --write)')
        fresh += lines[at:start] + made
        at = end
    fresh += lines[at:]
    if '--write' in sys.argv:
        RULES.write_text('\n'.join(fresh) + '\n', encoding='utf-8')
    for name, times in collections.Counter(names).items():
        if times > 1:
            wrong.append(f'{name}: stands {times} times in docs/RULES.md')
    for d in believed() + declared():
        place = f'crates/{d.crate}/…/{d.file}:{d.line} {d.name}'
        if not d.tags:
            wrong.append(f'{place}: names no clause')
        wrong += [f'{place}: there is no clause {tag}' for tag in d.tags if tag not in names]
    print('\n'.join(wrong) if wrong else f'rules: {len(names)} clauses, {len(believed())} definitions, nothing found')
    return 1 if wrong else 0


if __name__ == '__main__':
    sys.exit(main())
