#!/usr/bin/env python3
"""names.py TABLE, run at the repository's root: lines 'crate Module Old New'. Renames a definition of crates/crate/specs|proofs/Module.antt in it and in every file that takes it from there by a use list, and in the edits of such files."""
import re, os, sys, glob
rows = [l.split() for l in open(sys.argv[1]) if l.strip() and not l.startswith("#")]
codes = [r[1:] for r in rows if r[0] == "CODE"]
table = [r for r in rows if r[0] != "CODE"]
W = r"[\w′₀-₉'·-]"
def word(o): return re.compile(r"(?<!%s)(?<!\.)(?<!::)%s(?!%s)" % (W, re.escape(o), W))
files = [f for f in glob.glob("crates/**/*", recursive=True) if f.endswith((".rt", ".antt")) and "/target/" not in f and "/must-fail/" not in f]
texts = {f: open(f).read() for f in files}
defs = {}
for c, m, o, n in table:
    for d in ("specs", "proofs"):
        p = "crates/%s/%s/%s.antt" % (c, d, m)
        if p in texts and re.search(r"^(?:abbrev |unfoldable )?pub (?:record |data )?%s\b" % re.escape(o), texts[p], re.M): defs[(c, m, o)] = (p, d)
    if (c, m, o) not in defs: print("no definition:", c, m, o)
allnames = set()
for t in texts.values():
    allnames |= set(re.findall(r"^\s*(?:abbrev |unfoldable )?pub (?:record |data )?([A-Z]\w*)\b", t, re.M)) | set(re.findall(r"^\s*pub (?:struct|enum) (\w+)", t, re.M))
changes = {}
for c, m, o, n in table:
    if n in allnames: print("new name already used:", n)
    if (c, m, o) not in defs: continue
    p, d = defs[(c, m, o)]
    use = re.compile(r"use Rattle·%s(?:·specs|·proofs)?\.(?:specs|proofs)(?:\.(?:specs|proofs))?\.%s\.\{([^}]*)\}" % (re.escape(c), re.escape(m)))
    for f, t in list(texts.items()):
        hit = f == p
        for u in list(use.finditer(t)):
            if re.search(word(o).pattern + r" as ", u.group(1)): # under another name here: only the list changes
                texts[f] = texts[f].replace(u.group(0), re.sub(word(o).pattern + r" as ", n + " as ", u.group(0))); changes.setdefault(f, [])
            elif word(o).search(u.group(1)): hit = True
        if hit: changes.setdefault(f, []).append((o, n))
paths = {}
for c, o, n in codes:
    if n in allnames: print("new name already used:", n)
    path = re.compile(r"(Rattle·%s(?:·specs|·proofs)?\.(?:specs\.|proofs\.)+(?:declared\.)?)%s(?!%s)" % (re.escape(c), o, W))
    usec = re.compile(r"^\s*use %s::(?:%s;|\{[^}]*(?<!\w)%s(?!\w)[^}]*\})" % (c, o, o), re.M)
    got = re.compile(r"Rattle·%s(?:·specs|·proofs)?\.(?:specs\.|proofs\.)+declared\.%s\.\{[^}]*(?<!\w)%s(?!\w)" % (re.escape(c), o, o))
    if not any(re.search(r"^pub (?:struct|enum) %s\b" % o, t, re.M) for f, t in texts.items() if f.startswith("crates/%s/src" % c)): print("no type:", c, o); continue
    for f, t in texts.items():
        own = f.startswith("crates/%s/src/" % c)
        if own or usec.search(t) or got.search(t): changes.setdefault(f, []).append((o, n))
        qual = re.compile(r"(\b%s::)%s\b" % (c, o))
        if f.endswith(".rt") and qual.search(t): paths.setdefault(f, []).append((qual, n)); changes.setdefault(f, [])
        if path.search(t): paths.setdefault(f, []).append((path, n)); changes.setdefault(f, [])
for f, cs in changes.items():
    t = texts[f]
    for path, n in paths.get(f, []): t = path.sub(lambda m: m.group(1) + n, t)
    for o, n in cs: t = word(o).sub(n, t)
    open(f, "w").write(t)
edited = 0
for e in glob.glob("crates/*/must-fail/*.edit"):
    t = open(e).read()
    fm = re.search(r"^file: *(.*)$", t, re.M)
    f = e.split("/must-fail/")[0] + "/" + fm.group(1).strip()
    if f in changes:
        new = t
        for o, n in changes[f]:
            new = re.sub(r"^((?:old|new):.*)$", lambda m: word(o).sub(n, m.group(1)), new, flags=re.M)
        if new != t: open(e, "w").write(new); edited += 1
print(len(changes), "files,", edited, "edits")
readmes = 0
for c, o, n in [(r[0], r[2], r[3]) for r in table] + [tuple(r) for r in codes]:
    p = "crates/%s/README.md" % c
    if not os.path.exists(p): continue
    t = open(p).read()
    new = re.sub(r"`([^`]*)`", lambda m: "`" + re.sub(r"(?<!/)" + word(o).pattern + r"(?!\.antt)", n, m.group(1)) + "`", t)
    if new != t: open(p, "w").write(new); readmes += 1
print(readmes, "readmes")
