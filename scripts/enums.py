#!/usr/bin/env python3
"""Checks the tables of clause C2 in docs/RULES.md: a definition for the cases of each answer.

Every public enum that a public function of a library answers, as its result or inside it, stands in one row. So does every public function
that answers an `Option` or a `Result`, by its crate and its name, and so does every public field of an answered struct that holds one, by its crate,
its struct and its name. The definition in that row is one of crates/*/specs/, and its text names each case: those of the enum, `Some` and `None`,
or `Ok` and `Err`."""
import re
import sys

sys.dont_write_bytecode = True     # no files beside the scripts
from definitions import ROOT, believed_files, definitions_of
from rules import RULES, clauses

TYPE = re.compile(r'^pub (enum|struct) (\w+) \{\n(.*?)^\}', re.M | re.S)
ALIAS = re.compile(r'^pub type (\w+) = ([^;]+);', re.M)
FUNCTION = re.compile(r'^pub (?:extern "C" )?fn (\w+)(?:<[^>]*>)?\([^)]*\) -> ([^\n]+)$', re.M)
CASE = re.compile(r'^    ([A-Z]\w*)', re.M)
NAME = re.compile(r'\b[A-Z]\w*')
FIELD = re.compile(r'^    pub (\w+): ([^\n]*)', re.M)
ROW = re.compile(r'^  \| `(\w+(?:::\w+(?:\.\w+)?)?)` \| `([^`]+)` \|')
CASES = {'Option': ['Some', 'None'], 'Result': ['Ok', 'Err']}


def sources():
    """The text of each source file of a library, without comments."""
    for path in sorted(ROOT.glob('crates/*/src/**/*.rt')):
        if (ROOT / 'crates' / path.relative_to(ROOT / 'crates').parts[0] / 'src/lib.rt').exists():
            yield path.relative_to(ROOT / 'crates').parts[0], re.sub(r'//[^\n]*', '', path.read_text(encoding='utf-8'))


def answered():
    """The enums that public functions answer, and the functions and fields that answer an `Option` or a `Result`, each with its cases."""
    types, results, functions, homes = {}, [], {}, {}
    aliases = {name: meant for _, text in sources() for name, meant in ALIAS.findall(text)}
    for crate, text in sources():
        here = {name: (kind, inside) for kind, name, inside in TYPE.findall(text)}
        types.update(here)
        homes.update(dict.fromkeys(here, crate))
        for name, result in FUNCTION.findall(text):
            result = aliases.get(result, result)
            results.append(result)
            functions.update({f'{crate}::{name}': cases for word, cases in CASES.items() if result.startswith(word + '<')})
    reached, open_ones = set(), [name for result in results for name in NAME.findall(result)]
    while open_ones:
        name = open_ones.pop()
        if name in types and name not in reached:
            reached.add(name)
            open_ones += NAME.findall(types[name][1])
    for name in sorted(reached):
        if types[name][0] == 'struct':
            for field, inside in FIELD.findall(types[name][1]):
                functions.update({f'{homes[name]}::{name}.{field}': cases for word, cases in CASES.items() if word + '<' in inside})
    enums = {name: CASE.findall(inside) for name, (kind, inside) in sorted(types.items()) if kind == 'enum'}
    return functions | {name: cases for name, cases in enums.items() if name in reached}, enums


def texts():
    """The text of each believed definition, up to the next blank line, with the names that its file gives to cases (`use .. as ..`)."""
    found = {}
    for path in believed_files():
        whole = path.read_text(encoding='utf-8')
        lines, aliases = whole.splitlines() + [''], dict(re.findall(r'\b([A-Z]\w*) as ([A-Z]\w*)', whole))
        for d in definitions_of(path):
            found[d.name] = '\n'.join(lines[d.line - 1:lines.index('', d.line - 1)]), aliases
    return found


def main():
    lines = RULES.read_text(encoding='utf-8').splitlines()
    block = next(lines[start:end] for name, start, end in clauses(lines) if name == 'C2')
    rows = [row.groups() for row in map(ROW.match, block) if row]
    (enums, others), definitions, wrong = answered(), texts(), []
    enums |= {enum: others[enum] for enum, _ in rows if enum in others}     # an argument that has cases may have a row, too
    for enum in sorted(set(enums) | {enum for enum, _ in rows}):
        cited = [definition for other, definition in rows if other == enum]
        if enum not in enums:
            wrong.append(f'C2: `{enum}` stands in the table, but no public function answers it')
        elif len(cited) != 1:
            wrong.append(f'C2: `{enum}` stands in {len(cited)} rows of the table, and not in one')
        elif cited[0] not in definitions:
            wrong.append(f'C2: there is no definition `{cited[0]}` for `{enum}`')
        else:
            text, aliases = definitions[cited[0]]
            wrong += [f'C2: `{cited[0]}` does not name the case `{case}` of `{enum}`' for case in enums[enum]
                      if not re.search(rf'\b(?:{case}|{aliases.get(case, case)})\b', text)]
    print('\n'.join(wrong) if wrong else f'enums: {len(enums)} that are answered, nothing found')
    return 1 if wrong else 0


if __name__ == '__main__':
    sys.exit(main())
