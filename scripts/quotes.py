#!/usr/bin/env python3
"""Holds docs/AUDIT.md to the files: each line of a quoted statement stands in crates/*/specs/ as it is quoted, and each name that is set in
code font and begins like a statement (CSaysNo, LeavesNoneOut, Names) is one that crates/*/specs/ defines."""
import re
import sys

sys.dont_write_bytecode = True     # no files beside the scripts
from definitions import ROOT, definitions_of, spec_files

AUDIT = ROOT / 'docs' / 'AUDIT.md'
QUOTED = re.compile(r'^```\n(.*?)^```', re.M | re.S)
NAMED = re.compile(r'`([A-Z]\w*(?:-[a-z]+)*)`')
# in code font, but no statement: kinds of file and commands
OTHER = {'Form'}


def main():
    text = AUDIT.read_text(encoding='utf-8')
    lines = {line.strip() for path in spec_files() for line in path.read_text(encoding='utf-8').splitlines()}
    names = {d.name for path in spec_files() for d in definitions_of(path)}
    wrong = [f'docs/AUDIT.md: no such line in crates/*/specs/: {line.strip()}'
             for block in QUOTED.findall(text) for line in block.splitlines() if line.strip() and line.strip() not in lines]
    wrong += [f'docs/AUDIT.md: nothing is defined as {name}' for name in sorted(set(NAMED.findall(QUOTED.sub('', text)))) if name not in names | OTHER]
    print('\n'.join(wrong) if wrong else f'quotes: {len(QUOTED.findall(text))}, nothing found')
    return 1 if wrong else 0


if __name__ == '__main__':
    sys.exit(main())
