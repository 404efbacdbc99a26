#!/usr/bin/env python3
"""Holds what C gets to the library: each function that malquindo_c exports is a public one of malquindo, with the same arguments, result and
clauses, and only calls it; and include/malquindo.h declares these functions and no others. The prover proves each export, whatever its clauses are."""
import re
import sys

sys.dont_write_bytecode = True     # no files beside the scripts
from definitions import ROOT

FUNCTION = re.compile(r'^pub (?P<c>extern "C" )?fn (?P<name>\w+)\((?P<arguments>[^)]*)\)(?P<rest>.*?)^\{\n(?P<body>.*?)^\}', re.M | re.S)
DECLARED = re.compile(r'^\w+ (malquindo_\w+)\(', re.M)


def functions(crate):
    """The public functions of a crate: their heads, without line breaks, and their bodies."""
    found = {}
    for match in FUNCTION.finditer((ROOT / 'crates' / crate / 'src/lib.rt').read_text(encoding='utf-8')):
        arguments = [a.strip() for a in match['arguments'].split(',') if a.strip()]
        found[match['name']] = bool(match['c']), arguments, ' '.join(match['rest'].split()), match['body'].strip()
    return found


def main():
    library, exports, wrong = functions('malquindo'), functions('malquindo_c'), []
    for name in sorted(set(library) | set(exports)):
        if name not in library or name not in exports:
            wrong.append(f'{name}: is not a public function of both malquindo and malquindo_c')
            continue
        exported, arguments, rest, body = exports[name]
        if not exported or library[name][0]:
            wrong.append(f'{name}: malquindo_c is to export it, and malquindo is not')
        if (arguments, rest) != library[name][1:3]:
            wrong.append(f'{name}: malquindo_c has other arguments, another result or other clauses than malquindo')
        if body != f'malquindo::{name}({", ".join(a.split(":")[0] for a in arguments)})':
            wrong.append(f'{name}: malquindo_c does not only call it')
    declared = DECLARED.findall((ROOT / 'include/malquindo.h').read_text(encoding='utf-8'))
    wrong += [f'{name}: include/malquindo.h and malquindo_c do not both have it' for name in sorted(set(declared) ^ set(exports))]
    print('\n'.join(wrong) if wrong else f'exports: {len(exports)}, nothing found')
    return 1 if wrong else 0


if __name__ == '__main__':
    sys.exit(main())
