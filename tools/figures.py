#!/usr/bin/env python3
"""Prints the figures of the repository, a row for each crate: functions, lines of code, definitions, laws, lines of proof, wrong programs.

Definitions are the names that specs/ declares, and laws the names that proofs/ declares outside the files of single functions. Lines are counted without blank
lines and comments."""
import glob, os, re

def lines(text, comment):
    return sum(1 for l in text.splitlines() if l.strip() and not l.strip().startswith(comment))

def read(paths):
    return [open(p, encoding="utf-8").read() for p in paths]

def declared(text):  # names with a type of their own at the left margin, records and data
    names = re.findall(r"(?m)^(?:abbrev |unfoldable )?(?:pub )?([^\s:(){}]+)(?: \{[^}]*\})? :(?: |$)", text)
    types = re.findall(r"(?m)^(?:pub )?(?:record|data) (\S+)", text)
    return len(set(names)) + len(types)

rows = []
for line in open("crates.txt"):
    name = line.split("#")[0].split(":")[0].split()[:1]
    if not name:
        continue
    name = name[0]
    here = f"crates/{name}"
    code = read(glob.glob(f"{here}/src/**/*.rt", recursive=True))
    specs = read(glob.glob(f"{here}/specs/*.antt"))
    files = glob.glob(f"{here}/proofs/**/*.antt", recursive=True)
    texts = dict(zip(files, read(files)))
    laws = [t for p, t in texts.items() if os.path.basename(p) not in ("Proof.antt", "Invariants.antt", "Answers.antt", "Lib.antt")]
    rows.append((name,
                 sum(len(re.findall(r"(?m)^\s*(?:pub )?(?:extern \"C\" )?fn ", t)) for t in code),
                 sum(lines(t, "//") for t in code),
                 sum(declared(t) for t in specs), sum(lines(t, "--") for t in specs),
                 sum(declared(t) for t in laws),
                 sum(lines(t, "--") for t in texts.values()),
                 sum(len(glob.glob(f"{here}/{folder}/*.edit")) for folder in ("must-fail", "wrong"))))

heads = ("Crate", "Functions", "Lines of code", "Definitions", "Lines", "Laws", "Lines of proof", "Wrong programs")
print("| " + " | ".join(heads) + " |")
print("|" + "---|" * len(heads))
for r in rows:
    print("| `" + r[0] + "` | " + " | ".join(f"{n:,}" if n else "" for n in r[1:]) + " |")
print("| all | " + " | ".join(f"{sum(r[i] for r in rows):,}" for i in range(1, len(heads))) + " |")
