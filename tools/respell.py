#!/usr/bin/env python3
"""respell.py [--dry]: at the top of the repository, spells its own definitions, fields and lemmas as today's Rattle does.

Run once, after port.py. A definition or a field of specs/ and a lemma of proofs/ is in snake case; a dash stays only
where it joins two names that stand for themselves (a definition, a type, a function of src/). Types, facts and modules keep
their capitals, the paper's own symbols stay (S, D, P, Q, NS, EW, I-A), and names of src/ are not touched. The edits of
must-fail/ and the names in backticks of the pages follow. docs/PORT.md has what was renamed."""
import glob, os, re, sys

TOKEN = re.compile(r"[^\s(){}\[\];,.:«»`\"'λ⌜⌝/|&=<>+*◌@!?^~%]+(?:'+)?")
HEAD = re.compile(
    r"^\s*(?:abbrev\s+|unfoldable\s+|mutual\s+)*(?:pub\s+)?(?:abbrev\s+|unfoldable\s+)*(?:(?:data|record|ruleset)\s+(?:pub\s+)?)?"
    r"([^\s(){}\[\];,.:«»`\"]+?)((?:\s*[({].*)?)\s*:(?:\s|$)")
KEEP = {"I-A"}
# words of the older library inside names
OLDER = {"getD": "get_or", "get_d": "get_or", "toZ": "to_z", "ofZ": "of_z", "natAbs": "nat_abs"}
# what port.py made of a name with such a word
MADE = {"get_d_map": "get_or-map"}


def snake(part):
    part = OLDER.get(part, part).replace("′", "'")
    if not re.match(r"^[a-z]", part):
        return part
    return re.sub(r"(?<=[a-z0-9])([A-Z])", lambda m: "_" + m.group(1).lower(), part)


def declared(path):
    # the names that a file declares: at the margin or under a record, a data type or a module
    for line in open(path, encoding="utf-8"):
        if line.lstrip().startswith(("--", "use ", "|", "let ", "pub mod", "mod ", "module ")):
            continue
        m = HEAD.match(line)
        if m and m.group(1) not in ("λ", "let", "in"):
            yield m.group(1)


def source_names():
    got = set()
    for path in glob.glob("crates/*/src/*.rt"):
        text = open(path, encoding="utf-8").read()
        got |= set(re.findall(r"\b(?:fn|struct|enum|const)\s+(\w+)", text))
    return got


specs = sorted(glob.glob("crates/*/specs/*.antt"))
laws = sorted(glob.glob("crates/*/proofs/*.antt"))
words = {n for p in specs for n in declared(p)}
lemmas = {n for p in laws for n in declared(p)} - words
# plain words of English, also where a definition has that name
PLAIN = set("is one on by no at of all none some either other same first last left next past plain only own as which when more".split())
stand = {snake(w) for w in words if "-" not in w} | source_names() | set(OLDER.values()) | {"length", "take", "drop", "map", "set", "sets"}


def respelled(name, lemma):
    if name in KEEP or name in MADE:
        return MADE.get(name, name)
    parts = [snake(p) for p in name.split("-")]
    return ("-" if lemma and all(p in stand - PLAIN for p in parts) else "_").join(parts)


names = {}
for n in sorted(words):
    names[n] = respelled(n, False)
spelled = set(names.values())
for n in sorted(lemmas):
    # a lemma that would have its function's name
    new = respelled(n, True)
    names[n] = new + "_lem" if new != n and new in spelled else new


def brought_in():
    # names that come from the toolchain's library: they keep its spelling, also where the repository has one of that name
    own = {l.split(":")[0].split()[0] for l in open("crates.txt") if ":" in l and not l.startswith("#")}
    for path in glob.glob("crates/**/*.antt", recursive=True) + glob.glob("crates/*/src/*.rt"):
        for line in open(path, encoding="utf-8"):
            m = re.match(r"\s*(?:ghost )?(?:pub )?use ([^\s{]+)\.\{(.*)\}", line)
            if m and not (m.group(1).startswith("Rattle.") and m.group(1).split(".")[1] in own):
                for item in m.group(2).split(","):
                    yield item.strip().split(" as ")[0]


def aliases():
    # names that a file gives to what it brings in
    for path in glob.glob("crates/**/*.antt", recursive=True):
        for line in open(path, encoding="utf-8"):
            if line.startswith(("use ", "pub use ")):
                yield from re.findall(r"\sas\s+([a-z][^\s,}]*)", line)


for n in sorted(set(aliases())):
    names[n] = respelled(n, False)
theirs = set(brought_in())
names = {a: b for a, b in names.items() if a != b and a not in theirs}

# names that fall together
taken = {}
for a, b in sorted(names.items()):
    taken.setdefault(b, []).append(a)
together = {b: olds for b, olds in taken.items() if len(olds) > 1 or b in words or b in lemmas}

files = specs + laws + sorted(glob.glob("crates/*/proofs/**/*.antt", recursive=True)) + sorted(glob.glob("crates/*/src/*.rt"))
files = sorted(set(files))
clashes = []
for path in files:
    tokens = set(TOKEN.findall(open(path, encoding="utf-8").read()))
    for a in tokens & set(names):
        if names[a] in tokens:
            clashes.append((path, a, names[a]))

if "--dry" in sys.argv:
    print(len(words), "words,", len(lemmas), "lemmas,", len(names), "renamed")
    for b, olds in sorted(together.items()):
        print("together:", b, olds, "word" if b in words else "", "lemma" if b in lemmas else "")
    for c in clashes:
        print("clash:", *c)
    for a, b in sorted(names.items()):
        print("name:", a, b)
    sys.exit(0)


def turn(text):
    return TOKEN.sub(lambda m: names.get(m.group(0), m.group(0)), text)


for path in files + sorted(glob.glob("crates/*/must-fail/*.edit")):
    text = open(path, encoding="utf-8").read()
    new = turn(text)
    if new != text:
        open(path, "w", encoding="utf-8").write(new)
# in the pages, a name stands in backticks
for path in ["README.md"] + sorted(glob.glob("docs/*.md")):
    text = open(path, encoding="utf-8").read()
    new = re.sub(r"`[^`\n]+`", lambda m: turn(m.group(0)), text)
    if new != text:
        open(path, "w", encoding="utf-8").write(new)
print(len(names), "names")
