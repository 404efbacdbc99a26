#!/usr/bin/env python3
"""Counts the places of each point of docs/DESIGN-PASS.md in crates/*/src/.

    scripts/places.py              of the files as they stand
    scripts/places.py COMMIT       of that commit
    scripts/places.py -v [COMMIT]  with each place"""
import collections
import re
import subprocess
import sys

WIDE = "-v" in sys.argv
COMMIT = next((a for a in sys.argv[1:] if a != "-v"), None)


def run(*words):
    return subprocess.run(words, capture_output=True, text=True, check=True).stdout


def text_of(path):
    return run("git", "show", f"{COMMIT}:{path}") if COMMIT else open(path, encoding="utf-8").read()


def sources():
    listed = run("git", "ls-tree", "-r", "--name-only", COMMIT, "crates") if COMMIT else run("git", "ls-files", "crates")
    for path in listed.split():
        if path.endswith(".rt") and "/src/" in path:
            yield path, text_of(path)


def bare(text):
    return re.sub(r"//[^\n]*", "", text)


def functions(text):
    """name, parameters, clauses, body of each function, by the layout that rt fmt gives"""
    for m in re.finditer(r"^( *)(?:pub(?:\(crate\))? )?(?:const )?(?:extern \"C\" )?fn (\w+)(.*?)\n\1\{\n(.*?)\n\1\}$", text, re.S | re.M):
        head, *clauses = re.split(r"\n\s*(?=requires|ensures)", m[3])
        params = re.search(r"\((.*)\)", head, re.S)
        yield m[2], params[1] if params else "", clauses, m[4]
    for m in re.finditer(r"^( *)(?:pub(?:\(crate\))? )?(?:const )?fn (\w+)(\([^{;]*\)[^{;\n]*) \{\n(.*?)\n\1\}$", text, re.S | re.M):
        yield m[2], m[3], [], m[4]


def alike(body):
    """A body with each name in place of which another could stand: a name is the number of its first use, constants and numbers are one."""
    seen = {}
    words = re.sub(r"\b(?:[A-Z]\w*(?:::\w+)*|0x[0-9A-Fa-f]+|\d+)\b|b?\"[^\"]*\"", "X", body)
    keep = ("if", "else", "return", "let", "mut", "while", "for", "in", "match", "as", "true", "false", "usize", "u8", "u16", "u32", "u64", "len", "X")
    return re.sub(r"\s+", " ", re.sub(r"\b[a-z_]\w*\b", lambda m: m[0] if m[0] in keep else seen.setdefault(m[0], f"#{len(seen)}"), words)).strip()


def parts(clause):
    """The facts of a clause that stand side by side."""
    clause = re.sub(r"^\s*(?:requires|ensures)\s*(?:\w+ )?\{(.*)\}\s*$", r"\1", clause, flags=re.S)
    out, depth, word = [], 0, ""
    for c in clause + "×":
        depth += (c in "([{") - (c in ")]}")
        if c == "×" and depth == 0:
            out.append(word.strip().removeprefix("(").removesuffix(")").strip())
            word = ""
        else:
            word += c
    return [x for x in out if x]


places = collections.defaultdict(list)
bodies = collections.defaultdict(list)
facts = collections.defaultdict(set)
together = collections.defaultdict(set)
for path, text in sources():
    crate = path.split("/")[1]
    code = bare(text)
    for m in re.finditer(r"enum (\w+) \{(.*?)\n\}", code, re.S):
        variants = re.findall(r"^    (\w+)(\(|,| \{)", m[2], re.M)
        empty = [v for v, sort in variants if sort == ","]
        failing = [v for v, sort in variants if re.search(r"Refused|Stop|NotMeant|Status$|Faulty|Wrong$|^No[A-Z]|Nothing|Missing|Unfit|Bad$|Clean|ShortBuffer|ShortList|Other", v)]
        if (len(variants) == 2 and len(empty) == 1) or (failing and len(failing) < len(variants) and any(sort == "(" for _, sort in variants)):
            places["1 own enums of the shape of Option or Result"].append(f"{crate} {m[1]}")
    for m in re.finditer(r"^(?:pub )?const (\w+): (?:usize|u8|u16|StatusWord) = ", code, re.M):
        if "/status.rt" in path or m[1] in ("TRAVEL", "VISA", "BIOMETRICS", "ACTIVATED", "DEACTIVATED"):
            places["1 numbers for kinds or status words"].append(f"{crate} {m[1]}")
    for m in re.finditer(r"struct (\w+)[^{;]*\{(.*?)\n\}", code, re.S):
        fields = dict(re.findall(r"(\w+): ([^,\n]+)", m[2]))
        if any(t.startswith("Verdict") or t.startswith("Result<()") or k in ("status", "ok", "there", "read", "fault") for k, t in fields.items()):
            places["1 a flag, a verdict or a status with values beside it"].append(f"{crate} {m[1]}")
        if sum("[" in t for t in fields.values()) and any(k in ("n", "len", "length", "used", "count") for k in fields):
            places["6 a buffer with its length beside it"].append(f"{crate} {m[1]}")
        if sum(bool(re.match(r"\[\w+; ", t)) for t in fields.values()) > 1:
            places["6 parallel arrays"].append(f"{crate} {m[1]}")
    for name, params, clauses, body in functions(code):
        where = f"{crate} {name}"
        for w in re.findall(r"while [^{]*\{", body):
            places["3 while loops"].append(where)
        if re.search(r"while ", body) and re.search(r"^\s*\w+ \+= 1;", body, re.M):
            places["3 of these with an index that is counted by one"].append(where)
        arms = re.findall(r"=> ([^\n]*?),?$", body, re.M)
        if re.match(r"\s*(?:let [^\n]*;\s*)*match ", body) and arms and set(arms) <= {"true", "false"}:
            places["4 a match that only tells the variant"].append(where)
        if re.search(r"\b(same|equal|is_equal)\w*$", name):
            places["4 equality by hand"].append(where)
        if re.search(r"/ 256|% 256|/ 65536", body):
            places["4 bytes of a number by hand"].append(where)
        if re.search(r"if (\w+) < (\w+) \{\s*return \w+;\s*\}\s*\w+\s*(?:- \w+)?$", body.strip()):
            places["4 least, most, difference by hand"].append(where)
        if len(re.sub(r"\s+", "", body)) > 90 and crate not in ("malquindo_c",):
            bodies[alike(body)].append(where)
        for clause in clauses:
            for fact in parts(clause):
                if clause.lstrip().startswith("requires"):
                    facts[fact].add(where)
        names = re.findall(r"(\w+): ", params)
        for i in range(len(names) - 2):
            together[tuple(names[i : i + 3])].add(where)
for group in bodies.values():
    if len(set(group)) > 1:
        places["2 functions alike but for types, sizes and constants"].append(" = ".join(group))
for fact, users in sorted(facts.items()):
    if len(users) > 2:
        places["5 a fact that three functions or more require"].append(f"{fact}: {', '.join(sorted(users))}")
for names, users in sorted(together.items()):
    if len(users) > 2:
        places["5 three parameters that three functions or more take"].append(f"{', '.join(names)}: {len(users)} functions")
listed = run("git", "ls-tree", "-r", "--name-only", COMMIT, "crates") if COMMIT else run("git", "ls-files", "crates")
proofs = [path for path in listed.split() if "/proofs/" in path and path.endswith(".antt")]
places["8 functions with answers of their own"] = [path for path in proofs if path.endswith("/Answers.antt")]
for kind in sorted(places):
    print(f"{len(places[kind]):4} {kind}")
    if WIDE:
        for place in places[kind]:
            print(f"         {place}")
print(f"{sum(text_of(path).count(chr(10)) for path in proofs):,} lines of proof in {len(proofs)} files")
