#!/usr/bin/env python3
"""Spells the repository's own definitions and lemmas as today's Rattle does: words in snake case, where port.py left camel case.

usage: python3 tools/respell.py        at the top of the repository, once, right after the kit's port/port.py

It goes by the names that the .antt files declare: each part of a name between two dashes, as labelOf in labelOf-map, becomes label_of. It rewrites
the .antt and .rt files (outside of strings), the must-fail edits and the pages; it changes no function of src/, no exported name and no string. A name
whose snake spelling is a function's or a variable's in the same file gets the other name that OTHER has. It stops if two names would fall together.
"""

import os
import re
import subprocess
import sys

# The snake spelling of these stands for something else in a file that uses them, mostly a function that computes what the definition says.
OTHER = {
    "newIn": "new_items",
    "roomOf": "room_for",
    "pairsIn": "pairs_noted",
    "fieldAt": "field_standing",
    "declareFun": "declare_function",
    "noRecord": "no_record_found",
    "noteFiled": "note_is_filed",
    "laterKind": "kind_later",
    "bodyLength": "length_of_body",
    "ofKind": "field_of_kind",
    "editionKind": "kind_by_edition",
    "sheetedKind": "kind_sheeted",
    "firstKind": "kind_first",
    "ageAfter": "age_by",
    "unitsOf": "units_stated",
    "isEnd": "is_end_field",
    "sheetsField": "sheets_bytes",
    "isDigit": "is_digit_byte",
    "getD": "get_or",
}
# A local name that makes way.
LOCAL = {"crates/all_close/proofs/enter/Proof.antt": {"right_of": "right_tag"}}
# A file of specs/ may not be called Contracts.
MODULES = {"script_join": ("Contracts", "Promises")}

TOKEN = re.compile(r"[A-Za-z_][A-Za-z0-9_]*'*(?:-[A-Za-z0-9_]+'*)*[₀-₉]*")
HUMP = re.compile(r"^[a-z][a-z0-9]*(?:[A-Z][a-z0-9]*)+('*)$")


def snake(name):
    parts = []
    for part in name.split("-"):
        if HUMP.match(part):
            part = OTHER.get(part) or re.sub(r"([A-Z]+)", lambda m: "_" + m.group(1).lower(), part)
        parts.append(part)
    return "-".join(parts)


def files(ends, tops=("crates",)):
    for top in tops:
        if os.path.isfile(top):
            yield top
        for folder, dirs, names in os.walk(top):
            dirs[:] = sorted(d for d in dirs if d not in ("out", ".git"))
            for name in sorted(names):
                if name.endswith(ends):
                    yield os.path.join(folder, name)


def read(path):
    with open(path, encoding="utf-8", newline="") as it:
        return it.read()


def write(path, text):
    with open(path, "w", encoding="utf-8", newline="") as it:
        it.write(text)


def in_code(text, turn):
    """Turns the text outside of Rust's strings, byte strings and characters."""
    out = []
    at = 0
    for m in re.finditer(r'b?"(?:[^"\\]|\\.)*"|b\'(?:[^\'\\]|\\.[^\']*)\'|//[^\n]*', text):
        if m.group().startswith("//"):
            continue
        out.append(turn(text[at : m.start()]))
        out.append(m.group())
        at = m.end()
    out.append(turn(text[at:]))
    return "".join(out)


def main():
    tokens = set()
    for path in files(".antt"):
        for line in read(path).splitlines():
            tokens |= set(TOKEN.findall(line.split("--")[0] if not line.startswith("-- ") else ""))
    mine = {t: snake(t) for t in tokens if snake(t) != t}
    # The parts that a page or an edit may name, also those that port.py has respelled already.
    for path in files(".antt"):
        for m in TOKEN.findall(read(path)):
            if snake(m) != m:
                mine.setdefault(m, snake(m))
    back = {}
    for old, new in mine.items():
        if back.setdefault(new, old) != old:
            sys.exit(f"respell: {back[new]} and {old} fall together as {new}")
    clashes = 0
    for path in files((".antt", ".rt")):
        found = set(TOKEN.findall(read(path)))
        local = LOCAL.get(path, {})
        for old in found & set(mine):
            if mine[old] in found and mine[old] not in local:
                print(f"respell: {path}: {old} would fall together with {mine[old]}")
                clashes += 1
    if clashes:
        sys.exit(1)
    declared = {t for path in files(".antt") for t in TOKEN.findall(read(path))} | set(mine.values())

    def turn(text, more=False):
        def one(m):
            t = m.group()
            if t in mine:
                return mine[t]
            # A page or an edit still has the names that port.py turned.
            if more and snake(t) != t and snake(t) in declared:
                return snake(t)
            return t

        return TOKEN.sub(one, text)

    for path in files((".antt",)):
        text = read(path)
        for old, new in LOCAL.get(path, {}).items():
            text = re.sub(r"(?<![\w'-])" + old + r"(?![\w'-])", new, text)
        write(path, turn(text))
    for path in files((".rt",)):
        text = read(path)
        # What is left of the brackets of a clause behind a let.
        text = re.sub(r"⌜ ?(.*?) ?⌝", r"\1", text)
        write(path, in_code(text, turn))
    for path in files((".edit",)):
        write(path, turn(read(path), True))
    for path in files((".md",), ("crates", "docs", "README.md", "compare/README.md")):
        text = read(path)
        write(path, re.sub(r"`[^`\n]*`", lambda m: turn(m.group(), True), text))
    for crate, (old, new) in MODULES.items():
        subprocess.run(["git", "mv", f"crates/{crate}/specs/{old}.antt", f"crates/{crate}/specs/{new}.antt"], check=True)
        for path in files((".antt", ".rt")):
            text = read(path)
            turned = text.replace(f"Rattle.{crate}.specs.{old}.", f"Rattle.{crate}.specs.{new}.")
            if path.startswith(f"crates/{crate}/specs/Lib"):
                turned = re.sub(rf"\b(pub mod|mod) {old}\b", rf"\1 {new}", turned)
            if turned != text:
                write(path, turned)
    print(f"respell: {len(mine)} names")


if __name__ == "__main__":
    main()
