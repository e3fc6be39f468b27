#!/usr/bin/env python3
"""unused.py: names that the crates' specs/ and proofs/ define and nothing else in the repository names. A place to look, not a verdict."""
import glob, re

TOKEN = re.compile(r"[^\s(){}.,;\"«»\[\]]+")  # in code and proofs
OWN = ("Proof.antt", "Invariants.antt", "Answers.antt")  # the files of a function's proof: what they define is asked for by name
PATHS = glob.glob("crates/*/src/**/*.rt", recursive=True) + [p for d in ("specs", "proofs") for p in glob.glob(f"crates/*/{d}/**/*.antt", recursive=True)]
files = {f: open(f, encoding="utf-8").read() for f in PATHS}
count = {}
for text in files.values():
    for line in text.split("\n"):
        if line.startswith("--") or re.match(r"(ghost )?use ", line):
            continue
        for t in TOKEN.findall(line):
            count[t] = count.get(t, 0) + 1
for f, text in sorted(files.items()):
    if not f.endswith(".antt") or f.endswith(OWN):
        continue
    for m in re.finditer(r"(?m)^ *((?:abbrev |unfoldable )?(?:pub )?)([^\s:]+)(?: \{ℓ\})? : ", text):
        name = m.group(2)
        own = len(re.findall(r"(?m)^ *(?:(?:abbrev |unfoldable )?(?:pub )?)" + re.escape(name) + r"(?= |$)", text))
        token = [p for p in name.split("_") if p][0] if name.startswith("_") else name
        if count.get(token, 0) <= own and not re.match(r"\s", m.group(0)):
            print(f, name)
