#!/usr/bin/env python3
"""One outcome for every public function: its crate's proofs/Determined.antt has a theorem, `Determined`, or where a part is returned
`DeterminedPart` or `DeterminedAddress` (crates/base/specs/Determined.antt), of this function's own contract. The prover checks the
theorems; here is checked that none is missing, and that no public function has a `requires`: each takes every input.

    scripts/determined.py          says which public function has no theorem
    scripts/determined.py --list   lists those that need none: they only print, or read standard input (`read_full`). A function that prints answers
                                   nothing and changes nothing that is lent, and its `ensures` says nothing; of what is read the logic knows only
                                   how much it is at most. docs/AUDIT.md names their crates, under "Is anything left open?"
"""
import collections
import re
import sys

sys.dont_write_bytecode = True     # no files beside the scripts
from definitions import ROOT

# the one function that reads standard input
READS = ('program_console', 'read_full')

# path: as proofs cite it, its module in front; outside: it prints and does no more, or it reads standard input
# asks: it has a `requires`
Function = collections.namedtuple('Function', 'crate path place outside asks')

PUBLIC = re.compile(r'^\s*pub (?:extern "C" )?fn (\w+)')
USE = re.compile(r'^use Rattle\.(\w+)\.proofs\.([\w.]+)\.(Kinds|Reads) as (\S+)$', re.M)
FROM_BASE = re.compile(r'^use Rattle\.base\.specs\.Determined\.\{(.*)\}$', re.M)
THEOREM = re.compile(r'^pub \S+ :\s+(?:(Determined)\s+(\S+)\.ps\s+(\S+)\.r|(DeterminedPart|DeterminedAddress)\s+(\S+)\.ps)\s+(\S+)\.Post$', re.M)
# the same of a generic function: each of the three is given the type, and what there is of it
GENERIC = re.compile(r'^ *pub \S+ :\s+(Determined)\s+\((\S+)\.ps [^()]*\)\s+\((\S+)\.r [^()]*\)\s+\((\S+)\.Post [^()]*\)$', re.M)
SECTION = re.compile(r'^## Is anything left open\?.*?(?=^##)', re.M | re.S)


def functions():
    """Every public function. A program has none: nothing can call it."""
    found = []
    for path in sorted(ROOT.glob('crates/*/src/**/*.rt')):
        crate, _, *module = path.relative_to(ROOT / 'crates').with_suffix('').parts
        lines = path.read_text(encoding='utf-8').splitlines()
        for at, line in enumerate(lines):
            match = PUBLIC.match(line)
            if match:
                body = next(i for i in range(at, len(lines)) if lines[i].rstrip() == '{')
                head = ' '.join(x.strip() for x in lines[at:body])
                name = '.'.join([m for m in module if m != 'lib'] + [match.group(1)])
                prints = head.endswith(' ensures { Unit {0} }') and '->' not in head and '&mut' not in head
                found.append(Function(crate, name, f'{path.relative_to(ROOT)}:{at + 1}', prints or (crate, name) == READS, ' requires' in head))
    return found


def proved(crate):
    """The functions of a crate that have their theorem, in a file that the crate's Lib.antt declares."""
    lib, text = (p.read_text(encoding='utf-8') if p.exists() else '' for p in
                 [ROOT / 'crates' / crate / 'proofs' / name for name in ('Lib.antt', 'Determined.antt')])
    if 'pub mod Determined\n' not in lib:
        return set()
    cited = FROM_BASE.findall(text)
    meant = {name.strip() for name in cited[0].split(',')} if len(cited) == 1 else set()
    alias = {name: (kind, path) for owner, path, kind, name in USE.findall(text) if owner == crate}
    found = set()
    for whole, kinds, result, part, lent, reads in THEOREM.findall(text):
        kind, path = alias.get(reads, ('', ''))
        own = kind == 'Reads' and alias.get(kinds or lent) == ('Kinds', path) and (not whole or result == kinds)
        if own and (whole or part) in meant:
            found.add(path)
    for whole, kinds, result, reads in GENERIC.findall(text):
        kind, path = alias.get(reads, ('', ''))
        if kind == 'Reads' and alias.get(kinds) == ('Kinds', path) and result == kinds and whole in meant:
            found.add(path)
    return found


def main():
    every = functions()
    have = {crate: proved(crate) for crate in {f.crate for f in every}}
    wrong = [f'{f.place}: no theorem that the contract of {f.path} determines its outcome' for f in every if not f.outside and f.path not in have[f.crate]]
    wrong += [f'{f.place}: {f.path} has a `requires`, and a public function takes every input' for f in every if f.asks]
    outside = [f for f in every if f.outside]
    named = set(re.findall(r'`(\w+)`', SECTION.search((ROOT / 'docs/AUDIT.md').read_text(encoding='utf-8')).group()))
    wrong += [f'{f.place}: only prints or reads, and docs/AUDIT.md does not name {f.crate} among what is left open' for f in outside if f.crate not in named]
    if '--list' in sys.argv:
        print('\n'.join(f'{f.place} {f.path}' for f in outside))
    print('\n'.join(wrong) if wrong else f'determined: {len(every)} functions, {len(outside)} that only print or read, nothing found')
    return 1 if wrong else 0


if __name__ == '__main__':
    sys.exit(main())
