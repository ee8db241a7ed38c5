#!/usr/bin/env python3
"""Gives the definitions and lemmas of this repository the spelling of today's Rattle.

usage: python3 tools/spell.py          at the top of a checkout, after the kit's own script
       python3 tools/spell.py --list   prints the new names and changes nothing

A name that begins with a capital letter goes in camel case, any other in snake case. A dash stays only in the name of a lemma that says
what one function makes of another, between the names of the two. Names of Rust source, text in quotes and names that the checker makes are left alone.
"""

import os
import re
import sys

WORD = r"[A-Za-z_][A-Za-z0-9_']*(?:-[A-Za-z0-9_']+)*"
TOKEN = re.compile(WORD)
DECLARED = re.compile(rf"^\s*(?:(?:abbrev|unfoldable|pub|open)\s+)*(?:(record|data)\s+)?({WORD})\s*(.*)$")
BOUND = re.compile(r"[({]([^(){}:]*?) :")
LET = re.compile(rf"\blet ({WORD})")
USE = re.compile(r"use ((?:Rattle\.(?:std|core|alloc)|Prim|lib|mathlib)[\w.]*)\.\{([^}]*)\}")
QUOTED = re.compile(r"\"(?:\\.|[^\"\\])*\"|//.*$")
# files of specs/ that hold lemmas, since an item of a trait cites them
LEMMAS = ("Quotients.antt", "Ranks.antt", "Piles.antt", "Lasts.antt")
# functions of which lemmas say what they make of another
OUTER = ("balance", "decimal", "length")


def files(ending):
    for folder, dirs, names in os.walk("crates"):
        dirs[:] = sorted(d for d in dirs if d != "out")
        for name in sorted(names):
            if name.endswith(ending):
                yield os.path.join(folder, name)


def read(path):
    with open(path, encoding="utf-8", newline="") as f:
        return f.read()


def declared():
    """The names of definitions, of lemmas, of locals, and of the library."""
    definitions, lemmas, local, library = set(), set(), set(), set()
    for path in files((".antt", ".rt")):
        text = read(path)
        for it in USE.finditer(text):
            library.update(x for name in it.group(2).split(",") for x in TOKEN.findall(name.split(" as ")[0]))
        if not path.endswith(".antt"):
            continue
        specs = "/specs/" in path and os.path.basename(path) not in LEMMAS
        for line in text.split("\n"):
            if line.strip().startswith("--"):
                continue
            it = DECLARED.match(line)
            if it and (it.group(1) or re.match(r":(\s|$)", it.group(3))) and not re.match(r":\s*goal\.", it.group(3)):
                (definitions if specs else lemmas).add(it.group(2))
            local.update(LET.findall(line))
            for names in BOUND.findall(line):
                local.update(x for x in names.split() if TOKEN.fullmatch(x))
    return definitions, lemmas - definitions, local - definitions - lemmas, library


def snake(name):
    return name.replace("-", "_")


def camel(name):
    return "".join(part[:1].upper() + part[1:] for part in name.split("-"))


def new_names():
    definitions, lemmas, local, library = declared()
    new = {}
    for name in definitions | lemmas | local:
        if "-" not in name or name in library:
            continue
        if name[0].isupper():
            new[name] = camel(name)
        elif name in lemmas and name.startswith(OUTER) and name.split("-", 1)[1] in definitions:
            new[name] = name.split("-", 1)[0] + "-" + snake(name.split("-", 1)[1])
        else:
            new[name] = snake(name)
    if len(set(new.values())) < len(new):
        raise SystemExit("spell: two names would fall together")
    return {old: name for old, name in new.items() if old != name}


def turn(text, new):
    return TOKEN.sub(lambda it: new.get(it.group(0), it.group(0)), text)


def turn_source(line, new):
    """A line of source, but for what stands in quotes or behind a comment's mark."""
    out, at = [], 0
    for it in QUOTED.finditer(line):
        out += [turn(line[at : it.start()], new), it.group(0)]
        at = it.end()
    return "".join(out) + turn(line[at:], new)


def main(argv):
    if not os.path.isdir("crates"):
        raise SystemExit("spell: run it at the top of a checkout")
    new = new_names()
    if argv == ["--list"]:
        print("\n".join(f"{old} {name}" for old, name in sorted(new.items())))
        return
    taken = {x for path in files(".antt") for x in TOKEN.findall(read(path))}
    for old, name in sorted(new.items()):
        if name in taken:
            print(f"look: {name}, once {old}, is a name already")
    changed = 0
    for path in files((".antt", ".rt", ".edit")):
        text = read(path)
        got = turn(text, new) if path.endswith(".antt") else "\n".join(turn_source(line, new) for line in text.split("\n"))
        if got != text:
            with open(path, "w", encoding="utf-8", newline="") as f:
                f.write(got)
            changed += 1
    print(f"spell: {len(new)} names, {changed} files")


if __name__ == "__main__":
    main(sys.argv[1:])
