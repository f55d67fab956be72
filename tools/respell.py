#!/usr/bin/env python3
"""Brings the repository's own definitions, fields and lemmas to the toolchain's spelling: words in snake case, types and facts in upper camel case.

usage: python3 tools/respell.py [--list] [FOLDER]     in FOLDER, or here: rewrites crates/*/{src,specs,proofs}; --list only prints old and new

A name is respelled where an .antt file of the repository declares it with a dash, or with an upper-case letter and a dash or an underscore; a
variable with a dash, in the file that binds it. What
the toolchain makes (goals, steps as `c.loop-i`), what is imported from its libraries, and functions of src/ keep their names. Run it once, after
port.py and before any other edit.
"""

import os
import re
import sys

# Where the plain respelling would be the name of a function or a field of src/, or of a clause.
APART = {
    "demand-few": "demand_bounded",
    "supply-few": "supply_bounded",
    "first-line": "first_line_bytes",
    "targets-line": "targets_line_bytes",
    "transfer-line": "transfer_line_bytes",
    "next-number": "number_and_rest",
    "read-stream": "stream_or_refusal",
    "is-fair": "is_fair_lem",
    "read-line": "line_read",
    "reads-back": "reads_back_lem",
}

DECLARED = re.compile(r"^\s*(?:(?:pub|abbrev|unfoldable|record|data)\s+)*([^\s(){}:.,;=]+)(?:\s+[({].*)?\s*:\s")
TOKEN = re.compile(r"(?<![^\s(){}\[\].,;:⌜⌝«»|λ])[^\s(){}\[\].,;:⌜⌝«»|λ\"]+")
LOCAL = re.compile(r"(?:[({]|\blet )([^\s(){}:.,;=]+-[^\s(){}:.,;=]*) (?=[:=])")
IMPORT = re.compile(r"use\s+([^\s{]+)\.\{([^}]*)\}")


def files(root):
    for folder, dirs, names in os.walk(os.path.join(root, "crates")):
        dirs[:] = sorted(d for d in dirs if d != "out")
        for name in sorted(names):
            if name.endswith((".rt", ".antt")):
                yield os.path.join(folder, name)


def read(path):
    with open(path, encoding="utf-8") as f:
        return f.read()


def respelled(name):
    if name in APART:
        return APART[name]
    if name[0].isupper() and not re.match(r"[A-Z]-", name):
        return "".join(w[:1].upper() + w[1:] for w in re.split("[-_]", name))
    return name.replace("-", "_")


def declared(paths):
    found = set()
    for path in paths:
        if path.endswith(".antt"):
            for line in read(path).splitlines():
                m = DECLARED.match(line)
                if m and not m.group(1).startswith("--") and ": goal." not in line and respelled(m.group(1)) != m.group(1):
                    found.add(m.group(1))
    return found


def foreign(text, own):
    """The names that a file imports from the toolchain's libraries."""
    return {n.strip().split(" as ")[0] for where, names in IMPORT.findall(text) if where.split(".")[1:2] and where.split(".")[1] not in own for n in names.split(",")}


def main(argv):
    only_list = "--list" in argv
    rest = [a for a in argv if a != "--list"]
    root = rest[0] if rest else "."
    paths = list(files(root))
    own = set(os.listdir(os.path.join(root, "crates")))
    table = {n: respelled(n) for n in declared(paths)}
    if only_list:
        print("\n".join(f"{n} -> {table[n]}" for n in sorted(table)))
        return
    for path in paths:
        text = read(path)
        local = {n: respelled(n) for n in LOCAL.findall(text)} if path.endswith(".antt") else {}
        here = table | local
        kept = foreign(text, own) & here.keys()
        if kept:
            print(f"{path}: the library's {', '.join(sorted(kept))} keep their names")

        made = path.endswith(("Answers.antt", "Invariants.antt"))

        def turn(m):
            before = text[: m.start()]
            if m.group(0) in kept or before.endswith("goal.") or (made and re.search(r"(?<![\w'-])[clw]\.$", before)):
                return m.group(0)
            return here.get(m.group(0), m.group(0))

        turned = TOKEN.sub(turn, text)
        if turned != text:
            with open(path, "w", encoding="utf-8") as f:
                f.write(turned)


main(sys.argv[1:])
