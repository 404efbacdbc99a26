#!/usr/bin/env python3
"""Brings the names of this repository's definitions and lemmas to today's spelling, once, after port.py.

    tools/respell.py          rewrites crates/*/{src,specs,proofs} of the repository that it is run in, and the names in backticks in its pages
    tools/respell.py --map    prints old and new names, and writes nothing

A definition or a lemma is in snake case, a type (so a statement of specs/ too) in upper camel case. A dash in a lemma's name stays where it joins two
names; a plain word is added by an underscore. Functions, types, fields, constants and parameters of src/ keep their names, and so do strings."""
import collections
import pathlib
import re
import subprocess
import sys

ROOT = pathlib.Path(subprocess.run(["git", "rev-parse", "--show-toplevel"], capture_output=True, text=True, check=True).stdout.strip())
TOKEN = r"[^\s(){}\[\].,;:\"⌜⌝`…/|]+"
DECLARED = re.compile(r"^(\s*)((?:abbrev |unfoldable |pub |data |record |ruleset )*)(" + TOKEN + r")(?: [^:]*)? ?:(?!:)")
IMPORT = re.compile(r"^(?:pub )?(?:ghost )?use ([\w.'+-]+)\.\{([^}]*)\}")
CAMEL = re.compile(r"(?<=[a-z0-9])(?=[A-Z])")

# a lemma, a field or a local name that would bear the name of the definition beside it: in this file it gets another one first
IN_FILE = {
    "store_move_plan/proofs/Blank.antt": {"row_room": "row_room_lem"},
    "store_move_laws/proofs/Heads.antt": {"row_room": "row_room_lem"},
    "promises/specs/Links.antt": {"goes_on": "continues"},
    "promises/proofs/Links.antt": {"goes_on": "continues"},
    "promises/proofs/Linking.antt": {"chain_left": "chain_left_lem"},
    "promises/proofs/Fitting.antt": {"chain_fits": "chain_fits_lem"},
    "promises/proofs/Doing.antt": {"read_named": "read_named_lem"},
    "promises/proofs/Binary.antt": {"read_named": "read_named_lem"},
    "promises/proofs/Cuts.antt": {"whole_by": "whole_by_lem"},
    "objects_stamp/proofs/First.antt": {"of_size": "of_size_lem"},
    "machine_apdu/proofs/Laws.antt": {"or_most": "or_most_lem"},
}
# a statement that would get the name of a record of the same crate
BY_HAND = {
    "Link-answered": "EachLinkAnswered",
    "Goes_on": "GoesOn",
    "Fewer-rights": "FewerRights",
    "without-bit": "lacks_bit",
    "other-header": "another_header",
    "by-short": "by_short_id",
    "by-id": "by_file_id",
}


def files(*patterns):
    for pattern in patterns:
        yield from sorted(p for p in ROOT.glob(pattern) if "/out/" not in str(p))


def snake(part):
    """A part of a name; one that begins with a capital names a type, and one that begins with a digit is no name."""
    return part if not part[:1].islower() or part == "eMRTD" else CAMEL.sub("_", part).lower()


def camel(name):
    return "".join(part[:1].upper() + part[1:] for part in name.split("-"))


def declared():
    """Each name that specs/ or a shared lemma file declares, and whether it is a statement of specs/."""
    words, statements, lemmas, theirs = set(), set(), set(), set()
    for path in files("crates/*/specs/**/*.antt", "crates/*/proofs/**/*.antt"):
        local = path.name in ("Proof.antt", "Answers.antt", "Invariants.antt")
        specs = "/specs/" in str(path)
        for line in path.read_text(encoding="utf-8").splitlines():
            got = IMPORT.match(line)
            if got and not got[1].startswith(tuple(f"Rattle.{c.name}." for c in (ROOT / "crates").iterdir())):
                theirs.update(x.split(" as ")[-1].strip() for x in got[2].split(","))
            got = DECLARED.match(line)
            if not got or local or (got[1] and not got[2]) or got[3].startswith("-"):
                continue
            name = got[3]
            if specs and "-" in name and name[:1].isupper():
                statements.add(name)
            elif specs:
                words.add(name)
            else:
                lemmas.add(name)
    return words, statements, lemmas, theirs


def joined(name, names):
    """The parts of a lemma's name, in snake case, with a dash where it joins two names."""
    parts = name.split("-")
    if "" in parts:
        return name
    out = snake(parts[0])
    for i in range(1, len(parts)):
        left = {"-".join(parts[j:i]) for j in range(i)}
        right = {"-".join(parts[i:j]) for j in range(i + 1, len(parts) + 1)}
        out += ("-" if left & names and right & names else "_") + snake(parts[i])
    return out


def the_map():
    words, statements, lemmas, theirs = declared()
    names = words | statements | theirs
    new = {n: camel(n) for n in statements}
    for n in words - statements:
        new[n] = "_".join(map(snake, n.split("-")))
    for n in lemmas - words - statements:
        new[n] = joined(n, names) if re.search(r"[\w']-[\w']", n) else snake(n)
    tokens = collections.Counter()
    for path in files("crates/*/specs/**/*.antt", "crates/*/proofs/**/*.antt"):
        tokens.update(re.findall(TOKEN, path.read_text(encoding="utf-8")))
    for t in tokens:                                    # names that are bound and not declared
        if t not in new and CAMEL.search(t) and t[:1].islower() and t != "eMRTD":
            new[t] = "-".join(map(snake, t.split("-")))
    taken = {t for t in tokens if new.get(t, t) == t}
    by_new = collections.defaultdict(list)
    for old, it in sorted(new.items()):
        by_new[it].append(old)
    for it, olds in by_new.items():
        clash = [o for o in olds if o != it]
        if not clash or (len(olds) == 1 and it not in taken):
            continue
        for o in clash:                                 # the dash stays, and only the case is mended
            new[o] = "-".join(map(snake, o.split("-"))) if o not in statements else o
    new.update(BY_HAND)
    return {o: n for o, n in new.items() if o != n}, tokens


def turned(text, new):
    return re.sub(TOKEN, lambda m: new.get(m[0], m[0]), text)


def main():
    new, tokens = the_map()
    back = collections.defaultdict(set)
    for o, n in new.items():
        back[n].add(o)
    for n, olds in sorted(back.items()):
        if len(olds) > 1 or (n in tokens and n not in new):
            print(f"fall together: {n}: {sorted(olds)}{' and a name that stands already' if n in tokens else ''}")
    if "--map" in sys.argv:
        for o, n in sorted(new.items()):
            print(o, n)
        return
    for name, mine in IN_FILE.items():
        path = ROOT / "crates" / name
        path.write_text(turned(path.read_text(encoding="utf-8"), mine), encoding="utf-8")
    for path in files("crates/*/specs/**/*.antt", "crates/*/proofs/**/*.antt"):
        path.write_text(turned(path.read_text(encoding="utf-8"), new), encoding="utf-8")
    foreign = {o: n for o, n in new.items() if not re.fullmatch(r"[a-z0-9_]+|[A-Z]\w*", o)}      # what can't be a name of Rust
    for path in files("crates/*/src/**/*.rt"):
        foreign.update({t: snake(t) for t in re.findall(r" as ([a-z]+[a-z0-9]*[A-Z]\w*)", path.read_text(encoding="utf-8"))})
        path.write_text(turned(path.read_text(encoding="utf-8"), foreign), encoding="utf-8")
    for path in files("*.md", "docs/**/*.md"):
        text = path.read_text(encoding="utf-8")
        path.write_text(re.sub(r"`[^`\n]+`", lambda m: turned(m[0], foreign), text), encoding="utf-8")


if __name__ == "__main__":
    main()
