#!/usr/bin/env python3
"""Spells the repository's own definitions and lemmas as the toolchain spells its: words in snake case.

    tools/respell.py [ROOT]      once, right after the toolchain's port.py, which respells only such names as its library has too

A word that is declared in specs/ or in a lemma file of proofs/ loses its humps and its dashes: `numberOf` and `number-of` are `number_of`. Types, facts and
modules keep their capitals, and so does a fact at the head of a lemma's name. A name is renamed in a file where the file declares it, imports it from a crate of
this repository, or names it as a field; a name that is imported from a library stays. Functions of src/, strings, texts of programs and the names of goals in the
folder of a function stay as they are. Lines that begin `meet:` tell of two names of a file that would be one."""
import glob, os, re, sys

ROOT = sys.argv[1] if len(sys.argv) > 1 else os.path.dirname(os.path.dirname(os.path.abspath(__file__)))
NAME = r"[^\s(){}\[\].;,:@\"«»]+"
DECLARED = re.compile(r"(?m)^( *)((?:(?:abbrev|unfoldable|pub|data|record) )*)(" + NAME + r")(?: \{[^{}\n]*\})* (?::|\()(?= |$|\w)")
USE = re.compile(r"\buse (Rattle\.(\w+)\S*?|[\w.]+?)(?:\.\{([^}]*)\}| as (\S+))")
TOKEN = re.compile(r'"(?:[^"\\\n]|\\.)*"|(?:' + NAME + r")")
CRATES = {os.path.basename(c) for c in glob.glob(f"{ROOT}/crates/*")}


# a promise that would have the name of the definition that it is about
OWN_WORD = {"same-atom": "atom_is_same"}


def files(pattern):
    return sorted(f for f in glob.glob(f"{ROOT}/crates/*/{pattern}", recursive=True) if "/out/" not in f)


def read(f):
    return open(f, encoding="utf-8").read()


def of_function(f):  # whether a file stands in the folder of a function, where Rattle makes most names
    return f.split("/proofs/", 1)[-1].count("/") > 0 if "/proofs/" in f else False


def snake(name):
    if name in OWN_WORD: return OWN_WORD[name]
    head = ""
    if re.match(r"[A-Z]\w*-", name): head, name = name.split("-", 1); head += "-"
    words = re.sub(r"(?<=[a-z0-9])[A-Z]+", lambda m: "_" + m[0].lower(), name)
    return head + words.replace("-", "_")


specs, lemmas = files("specs/**/*.antt"), [f for f in files("proofs/*.antt") if not f.endswith("/Lib.antt")]
code, edits = files("src/**/*.rt"), files("must-fail/*.edit") + files("wrong/*.edit")
folders = [f for f in files("proofs/**/*.antt") if of_function(f)]

declared, fields, renamed = {}, set(), {}
for f in specs + lemmas:
    here = declared[f] = set()
    inside = None
    for line in read(f).split("\n"):
        if line and not line.startswith(" "): inside = re.match(r"(?:pub )?record ", line)
        m = DECLARED.match(line)
        if not m: continue
        here.add(m[3])
        if inside and m[1] == "  ": fields.add(m[3])
        if re.match(r"[a-z]", m[3]) or re.match(r"[A-Z]\w*-", m[3]): renamed[m[3]] = snake(m[3])
renamed = {a: b for a, b in renamed.items() if a != b}


def imports(text):
    own, library = set(), set()
    for m in USE.finditer(text):
        names = {re.sub(r".* as ", "", n.strip()) for n in (m[3] or m[4] or "").split(",")} | {n.strip().split(" as ")[0] for n in (m[3] or "").split(",")}
        (own if m[2] in CRATES else library).update(names)
    return own, library


def scope(f, text):  # the names that a file means as the repository's own
    own, library = imports(text)
    if f.endswith(".edit"): return set(renamed) if "specs/" in text or "proofs/" in text else {n for n in renamed if "-" not in n}
    names = own | declared.get(f, set()) | (fields if not of_function(f) else set())
    names |= {n for n in renamed if "-" not in n}
    return names - library


def turned(f, text, table):
    # a name that is spelled as it should be already may be a function's in code and in edits
    mine = {n: table[n] for n in scope(f, text) if n in table and (f.endswith(".antt") or re.search("[A-Z-]", n))}
    def one(m):
        word = m[0]
        if word.startswith('"'): return word
        if word in mine: return mine[word]
        if text[m.start() - 1:m.start()] == "." and word in table and (word in fields or "-" not in word) and (f.endswith(".antt") or re.search("[A-Z-]", word)): return table[word]
        bare = word.strip("`'")
        if bare != word and bare in mine: return word.replace(bare, mine[bare])
        return word
    return TOKEN.sub(one, text)


everything = specs + lemmas + folders + code + edits
texts = {f: read(f) for f in everything}
words = {f: {m[0] for m in TOKEN.finditer(t)} for f, t in texts.items()}

# A lemma that would have the name of a definition has `_lem` after it, as in the toolchain's library.
definitions = {renamed.get(n, n) for f in specs for n in declared[f]}
of_lemmas = {n for f in lemmas for n in declared[f]} - {n for f in specs for n in declared[f]}
for n in sorted(of_lemmas):
    if renamed.get(n, n) in definitions and re.match(r"[a-z]", n):
        renamed[n] = renamed.get(n, n) + "_lem"
        print(f"look: the lemma {n} is {renamed[n]}, since a definition has that name")

# Two names of one file that would be one.
for f in specs + lemmas + code:
    mine, back = {n: renamed[n] for n in scope(f, texts[f]) & words[f] if n in renamed}, {}
    bare = re.sub(r"(?m)^ghost use .*|//.*", "", texts[f])
    for n, to in mine.items():
        if back.setdefault(to, n) != n: print(f"meet: {os.path.relpath(f, ROOT)}: {n} and {back[to]} are {to}")
        if f.endswith(".rt"):
            if re.search(rf"(?<![\w:.])(?<!fn ){re.escape(to)}(?!\(|\w|;)", bare): print(f"meet: {os.path.relpath(f, ROOT)}: {n} would be {to}, which the code has")
        elif to in words[f] and to not in mine and to not in {w for m in USE.finditer(texts[f]) for w in m[1].split(".")}: print(f"meet: {os.path.relpath(f, ROOT)}: {n} would be {to}, which stands there")

# An edit has the names that stood before port.py ran.
landed = {renamed.get(n, n) for here in declared.values() for n in here}
for f in edits:
    for w in words[f]:
        if re.match(r"[a-z]\w*[A-Z]", w) and snake(w) in landed: renamed.setdefault(w, snake(w))

for f, t in texts.items():
    new = turned(f, t, renamed)
    if new != t: open(f, "w", encoding="utf-8").write(new)
print(f"respell: {len(renamed)} names")
