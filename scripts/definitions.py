"""The definitions that a reader has to believe, with the clauses of docs/RULES.md that their comments name.

`believed()` lists every public definition of crates/*/specs/*.antt, but for Loops.antt, which only proofs need, and Lib.antt, which only
lists files. A definition's clauses are the tags, as [I4], of the comment right above it and of the comments inside it. A definition
without a comment of its own belongs to the group above it: then the nearest comment above counts.

`declared()` lists the public types and constants of crates/*/src/*.rt whose comment names a clause. They need none.
"""
import collections
import pathlib
import re

ROOT = pathlib.Path(__file__).resolve().parent.parent
LOOPS_LINE = '-- Not to be believed: only contracts of private functions and proofs cite this.'

# name: what is defined; comment: the text above it and inside it; tags: the clauses named there
Definition = collections.namedtuple('Definition', 'crate file line name comment tags')

PUB = re.compile(r"^(?:unfoldable |abbrev |opaque )*pub (?:data |record )?([^\W\d][\w'-]*)\s*(?::|\(|\{|$)")
DECLARED = re.compile(r'^pub (?:enum|struct|const) (\w+)')
TAG = re.compile(r'\[([A-Z]{1,2}\d+)\]')


def spec_files():
    """Every file of definitions, Loops.antt too."""
    return sorted(f for f in ROOT.glob('crates/*/specs/**/*.antt') if f.name != 'Lib.antt')


def believed_files():
    return [f for f in spec_files() if f.name != 'Loops.antt']


def tags_in(text):
    return list(dict.fromkeys(TAG.findall(text)))


def definitions_of(path, pattern=PUB, mark='--'):
    """The definitions of one file, in order."""
    found = []
    comment = []     # the comment that is being read, or that stands right above this line
    nearest = ''     # the nearest comment that is finished
    own = None       # the lines of comment of the definition that is being read
    for number, line in enumerate(path.read_text(encoding='utf-8').splitlines(), 1):
        if line.startswith(mark):
            comment.append(line)
            continue
        match = pattern.match(line)
        if match:
            own = comment if comment else [nearest]
            nearest = '\n'.join(own)
            found.append((number, match.group(1), own))
        elif own is not None and line.strip() and comment:
            own.extend(comment)     # between two clauses of one definition
        elif comment:
            nearest = '\n'.join(comment)
        if own is not None and line.startswith(' ') and mark in line:
            own.append(line[line.index(mark):])
        comment = []
    crate, name = path.relative_to(ROOT / 'crates').parts[0], path.name
    return [Definition(crate, name, n, d, '\n'.join(own), tags_in('\n'.join(own))) for n, d, own in found]


def believed():
    return [d for f in believed_files() for d in definitions_of(f)]


def declared():
    files = sorted(ROOT.glob('crates/*/src/**/*.rt'))
    return [d for f in files for d in definitions_of(f, DECLARED, '//') if d.tags]


if __name__ == '__main__':
    for d in believed():
        print(f'{d.crate}/{d.file}:{d.line} {d.name} {" ".join(d.tags)}')
