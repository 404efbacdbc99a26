#!/usr/bin/env python3
"""One name, one meaning: lists the names that more than one file defines, of crates/*/specs/ and of the public types of crates/*/src/, and
those that a `use .. as ..` of specs/ gives to something else."""
import collections
import re
import sys

sys.dont_write_bytecode = True     # no files beside the scripts
from definitions import ROOT, definitions_of, spec_files

TYPE = re.compile(r'^pub (?:enum|struct) (\w+)')
ALIAS = re.compile(r"([^\s{,]+) as ([^\W\d][\w'-]*)")


def main():
    owners = collections.defaultdict(set)
    for path in spec_files():
        for d in definitions_of(path):
            owners[d.name].add(f'{d.crate}/specs/{d.file}')
        for line in path.read_text(encoding='utf-8').splitlines():
            for meant, name in ALIAS.findall(line) if line.startswith('use ') else []:
                owners[name].add(f'a `use` as {meant.split(".")[-1]}')
    for path in sorted(ROOT.glob('crates/*/src/**/*.rt')):
        for d in definitions_of(path, TYPE, '//'):
            owners[d.name].add(f'{d.crate}/src/{d.file}')
    twice = {name: sorted(files) for name, files in owners.items() if len(files) > 1}
    for name in sorted(twice):
        print(f'{name}: {", ".join(twice[name])}')
    if not twice:
        print(f'names: {len(owners)}, nothing found')
    return 1 if twice else 0


if __name__ == '__main__':
    sys.exit(main())
