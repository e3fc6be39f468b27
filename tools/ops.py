#!/usr/bin/env python3
"""ops.py [ROOT]: has every .antt file of specs/ and proofs/, and every ghost use of src/, import the library's operators from Rattle.std.specs.Prelude itself.
`rt ci` refuses an operator (a name with ◌ that the Prelude has) that comes through a module of the repository, as Rattle.ascii.specs.Library."""
import glob, os, re, sys
ROOT = sys.argv[1] if len(sys.argv) > 1 else "."
PRELUDE = "Rattle.std.specs.Prelude"
symbols = {s for s in re.findall(r"[^\s{},]+", open("/opt/rattle/rattle/std/specs/Prelude.antt", encoding="utf-8").read()) if "◌" in s}
own = {os.path.basename(c) for c in glob.glob(f"{ROOT}/crates/*")}
USE = re.compile(r"(?m)^((?:ghost )?use )(Rattle\.(\w+)\.[\w.]+)\.\{([^{}]*)\}(;?)$")
changed = 0
for f in sorted(glob.glob(f"{ROOT}/crates/*/specs/**/*.antt", recursive=True) + glob.glob(f"{ROOT}/crates/*/proofs/**/*.antt", recursive=True) + glob.glob(f"{ROOT}/crates/*/src/**/*.rt", recursive=True)):
    text = open(f, encoding="utf-8").read()
    taken, head = [], None
    def one(m):
        global head
        if m[3] not in own: return m[0]
        names = [n.strip() for n in m[4].split(",") if n.strip()]
        ops = [n for n in names if n in symbols]
        if not ops: return m[0]
        taken.extend(o for o in ops if o not in taken)
        rest = [n for n in names if n not in symbols]
        line = f"{m[1]}{m[2]}.{{{', '.join(rest)}}}{m[5]}" if rest else ""
        mark = "" if head else "\0"
        head = head or (m[1], m[5])
        return mark + line if line else mark + "\1"
    new = USE.sub(one, text)
    if not taken: continue
    has = re.search(r"(?m)^((?:ghost )?use )" + re.escape(PRELUDE) + r"\.\{([^{}]*)\}(;?)$", new)
    if has:
        names = [n.strip() for n in has[2].split(",") if n.strip()]
        more = [t for t in taken if t not in names]
        new = new[:has.start()] + f"{has[1]}{PRELUDE}.{{{', '.join([*more, *names])}}}{has[3]}" + new[has.end():]
        new = new.replace("\0", "")
    else:
        new = new.replace("\0", f"{head[0]}{PRELUDE}.{{{', '.join(taken)}}}{head[1]}\n", 1)
    new = new.replace("\1\n", "")
    open(f, "w", encoding="utf-8").write(new)
    changed += 1
print(changed, "files")
