#!/usr/bin/env python3
"""Holds docs/EDITS.md to the edits and to the promises: each edit of crates/*/must-fail/ and of tests/statements/ has its row, each row its
edit, and each field of a record of crates/promises/specs/ stands in a row or in the list of those without an edit."""
import re
import sys

sys.dont_write_bytecode = True     # no files beside the scripts
from definitions import ROOT

EDITS = ROOT / 'docs' / 'EDITS.md'
ROW = re.compile(r'^\|.*?\| `([\w/]+)` \|', re.M)
RECORD = re.compile(r'^pub record (\S+)')
FIELD = re.compile(r'^  pub ([\w-]+) :')


def files():
    """Every edit, as docs/EDITS.md names it: those of promises, and of tests/statements/, by the name alone."""
    for path in sorted(ROOT.glob('crates/*/must-fail/*.edit')):
        crate = path.parts[-3]
        yield path.stem if crate == 'promises' else f'{crate}/{path.stem}'
    for path in sorted((ROOT / 'tests' / 'statements').glob('*.edit')):
        yield path.stem


def fields():
    """Every field of a promise, as record.field."""
    for path in sorted((ROOT / 'crates' / 'promises' / 'specs').glob('*.antt')):
        record = None
        for line in path.read_text(encoding='utf-8').splitlines():
            if RECORD.match(line):
                record = RECORD.match(line).group(1)
            elif record and FIELD.match(line):
                yield f'{record}.{FIELD.match(line).group(1)}'
            elif line and not line.startswith(' '):
                record = None


def main():
    text = EDITS.read_text(encoding='utf-8')
    have, told = list(files()), ROW.findall(text)
    wrong = [f'docs/EDITS.md: no row for {name}' for name in have if name not in told]
    wrong += [f'docs/EDITS.md: no edit {name}' for name in sorted(set(told)) if name not in have]
    wrong += [f'docs/EDITS.md: nothing is said of {name}' for name in fields() if f'`{name}`' not in text]
    print('\n'.join(wrong) if wrong else f'edits: {len(have)}, {len(list(fields()))} fields, nothing found')
    return 1 if wrong else 0


if __name__ == '__main__':
    sys.exit(main())
