#!/usr/bin/env python3
"""Respells the repository's own definitions and lemmas: words in snake case, types in camel case.

usage: python3 tools/respell.py      at the top of the repository, once, after port.py

port.py turns the library's names and only some of the repository's. This script collects every
name with a dash that a file of specs/ or proofs/ defines, and writes it anew in all of specs/,
proofs/, the clauses of src/ and the must-fail edits: `table-in` becomes `table_in`, a type
`Num-in` becomes `NumIn`. A dash before a sign stays (`total-+`). Names that Rattle makes, strings
and comments stay as they are. It stops where two names would fall together.
"""
import os
import re
import sys

ROOT = "crates"
CRATES = sorted(os.listdir(ROOT))
WORD = r"[^\s(){};,.λ\"→:]+"
# defined in a form that the heads below do not show
MORE = ["then-bad"]


def files(ends):
    for folder, dirs, names in os.walk(ROOT):
        dirs[:] = sorted(d for d in dirs if d != "out")
        for name in sorted(names):
            if name.endswith(ends):
                yield os.path.join(folder, name)


def read(path):
    with open(path, encoding="utf-8") as f:
        return f.read()


def parts(text, comment):
    """The text in parts, of which every second is a string or a comment."""
    return re.split(r'("(?:[^"\\\n]|\\.)*"|(?m:(?:^|(?<=\s))%s(?:\s.*)?$))' % comment, text)


def code(text, comment):
    return "".join(p if i % 2 == 0 else " " * len(p) for i, p in enumerate(parts(text, comment)))


def own_module(path):
    return path.startswith("Rattle.") and path.split(".")[1] in CRATES


def collect():
    """The own names with a dash, and which of them are types; and the library's names that are imported."""
    names, types, library = set(MORE), set(), set()
    for path in files(".antt"):
        for line in code(read(path), "--").split("\n"):
            m = re.match(r"\s*(?:pub )?use (\S+?)\.\{(.*)\}", line)
            if m:
                for item in m.group(2).split(","):
                    name, _, other = item.strip().partition(" as ")
                    if not own_module(m.group(1)):
                        library.add(name)
                    if other:
                        names.add(other)
                continue
            m = re.match(r"\s*(?:abbrev |unfoldable )?(?:pub )?(%s)\s*:\s*(.*)$" % WORD, line)
            if m and not line.strip().startswith(("λ", "→")):
                if re.match(r"(goal|need)\.", m.group(2)):
                    continue  # a goal's answer has the name that Rattle made
                names.add(m.group(1))
                if re.search(r"Type \d\s*$", line):
                    types.add(m.group(1))
            m = re.match(r"\s*(?:pub )?(?:record|data) (%s)" % WORD, line)
            if m:
                names.add(m.group(1))
                types.add(m.group(1))
    return names, types, library


def respelled(name, is_type):
    if is_type:
        return "".join(w[:1].upper() + w[1:] for w in name.split("-"))
    name = re.sub(r"(?<=[A-Za-z0-9'])-(?=[A-Za-z0-9])", "_", name)
    return re.sub(r"(?<=[a-z])[A-Z]+(?=[a-z_]|$)", lambda m: "_" + m.group(0).lower(), name) if name[0].islower() else name


def turn(text, comment, new):
    found = parts(text, comment)
    for i in range(0, len(found), 2):
        found[i] = re.sub(r"[^\s(){};,.λ\"→]+", lambda m: new.get(m.group(0), m.group(0)), found[i])
    return "".join(found)


def main():
    names, types, library = collect()
    new = {n: respelled(n, n in types) for n in sorted(names) if n not in library}
    new = {n: m for n, m in new.items() if n != m}
    taken = (names - set(new)) | library
    clash = sorted(n for n, m in new.items() if m in taken or list(new.values()).count(m) > 1)
    if clash:
        print("these would fall together with other names: " + ", ".join(f"{n} -> {new[n]}" for n in clash))
        if "--force" not in sys.argv:
            return 1
    count = 0
    for path in list(files(".antt")) + list(files(".rt")) + list(files(".edit")):
        old = read(path)
        text = turn(old, "--" if path.endswith(".antt") else "//", new)
        if text != old:
            count += 1
            with open(path, "w", encoding="utf-8") as f:
                f.write(text)
    print(f"{len(new)} names, {count} files")
    return 0


if __name__ == "__main__":
    raise SystemExit(main())
