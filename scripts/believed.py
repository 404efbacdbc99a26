#!/usr/bin/env python3
"""How many lines an auditor has to read: those of crates/*/specs/, but for Loops.antt, blank lines and lines that begin with `use`.

    scripts/believed.py           says whether README.md has this figure, in the line marked <!-- believed-lines -->
    scripts/believed.py --write   writes it there
    scripts/believed.py --list    lists the files with their lines, the longest first
"""
import re
import sys

sys.dont_write_bytecode = True     # no files beside the scripts
from definitions import ROOT, believed_files

README = ROOT / 'README.md'
MARK = '<!-- believed-lines -->'
FIGURE = re.compile(r'\d[\d,]*(?= lines)')


def lines_of(path):
    lines = path.read_text(encoding='utf-8').splitlines()
    return sum(1 for line in lines if line.strip() and not line.startswith(('use ', 'pub use ')))


def main():
    files = believed_files()
    figure = f'{sum(map(lines_of, files)):,}'
    if '--list' in sys.argv:
        for path in sorted(files, key=lines_of, reverse=True):
            print(f'{lines_of(path):5} {path.relative_to(ROOT)}')
    text = README.read_text(encoding='utf-8')
    marked = [line for line in text.splitlines() if MARK in line and FIGURE.search(line)]
    if len(marked) != 1:
        print(f'README.md: one line is to say "… {figure} lines …" and bear {MARK}; {len(marked)} do')
        return 1
    fresh = FIGURE.sub(figure, marked[0], count=1)
    if fresh != marked[0]:
        if '--write' not in sys.argv:
            print(f'README.md: the lines to be believed are {figure} (scripts/believed.py --write)')
            return 1
        README.write_text(text.replace(marked[0], fresh), encoding='utf-8')
    print(f'believed: {figure} lines in {len(files)} files, nothing found')
    return 0


if __name__ == '__main__':
    sys.exit(main())
