#!/usr/bin/env python3
"""Lists the places in src/ that docs/DESIGN-PASS.md speaks of, point by point.

usage: python3 tools/places.py [POINT..]      at the top of the repository

It finds candidates by their form alone and decides nothing: what each place became, or why it
stays, stands in the page. It goes by text, comments and clauses left out, so it looks the same
whoever runs it. Points 7 and 8 are words to look for (`dyn`, tables of functions; answers).
"""
import collections
import os
import re
import sys

ENUM = re.compile(r"^(?:pub(?:\(crate\))? )?enum (\w+) \{(.*?)^\}", re.S | re.M)
STRUCT = re.compile(r"^\s*(?:pub(?:\(crate\))? )?struct (\w+)(?:<[^{]*?>)? \{(.*?)^\s*\}", re.S | re.M)
FUNCTION = re.compile(r"^( *)(?:pub(?:\(crate\))? )?fn (\w+)(?:<.*?>)?\((.*?)\)( -> [^{]*?)?\s*(?:where.*?)?\{$(.*?)^\1\}", re.S | re.M)
EMPTY = re.compile(r"^ *(?:pub )?fn \w+\(\)\s*\{\}", re.M)
NUMBERS = r"(?:u8|u16|u32|u64|usize|i64)"


def sources():
    for folder, dirs, names in os.walk("crates"):
        dirs[:] = sorted(d for d in dirs if d != "out")
        for name in sorted(names):
            if name.endswith(".rt"):
                path = os.path.join(folder, name)
                with open(path, encoding="utf-8") as f:
                    yield path, f.read()


def code(text):
    """The text without comments and clauses; clauses keep their lines out of the way."""
    text = re.sub(r"^\s*//.*\n", "", text, flags=re.M)
    lines, depth = [], 0
    for line in text.split("\n"):
        if depth or re.match(r"\s*(requires|ensures|ghost)\b", line):
            depth += line.count("{") - line.count("}")
            continue
        lines.append(line)
    return "\n".join(lines)


def clauses(text):
    """Each function's name with its clauses, each clause in one line."""
    found = []
    for part in re.split(r"(?=^ *(?:pub(?:\(crate\))? )?fn )", text, flags=re.M)[1:]:
        name = re.match(r"\s*(?:pub(?:\(crate\))? )?fn (\w+)", part).group(1)
        own, clause, depth = [], "", 0
        for line in part.split("\n"):
            if depth or re.match(r"\s*(requires|ensures)\b", line):
                clause += " " + line.strip()
                depth += line.count("{") - line.count("}")
                if depth == 0:
                    own.append(clause.strip())
                    clause = ""
        found.append((name, own))
    return found


def functions(text):
    return [(m.group(2), " ".join(m.group(3).split()), m.group(4) or "", m.group(5)) for m in FUNCTION.finditer(EMPTY.sub("", code(text)))]


def point_1():
    enums = set()
    for path, text in sources():
        enums |= {m.group(1) for m in ENUM.finditer(code(text))}
    for path, text in sources():
        plain = code(text)
        for m in ENUM.finditer(plain):
            for variant in re.findall(r"^\s+(Bad|Neither|Missing|Absent)\b", m.group(2), re.M):
                yield path, f"enum {m.group(1)} has a variant {variant} for what is none"
        for m in STRUCT.finditer(plain):
            for field in re.findall(r"(\w+): bool", m.group(2)):
                yield path, f"struct {m.group(1)} has a flag {field}"
        for name, params, result, body in functions(text):
            if "&mut" in params and result.strip() == "-> bool":
                yield path, f"{name} says with a bool whether it wrote"
            kind = re.match(r"\w+: (\w+)$", params)
            if kind and kind.group(1) in enums and re.search(r"-> \[?" + NUMBERS, result):
                yield path, f"{name} gives a number for a kind"
            if re.match(r"\w+: u(16|64)$", params) and result.replace("->", "").strip() in enums:
                yield path, f"{name} takes a number for a kind"
            if re.search(r"\b256\b", body) and "_cases" not in path:
                yield path, f"{name} gives a number for none"
            if path.startswith("crates/evaluate_cases") and result.strip() in ("-> i64", "-> [i64; 8]", "-> [i64; N]", "-> [i64; 2]", "-> [usize; 2]", "-> [usize; 5]", "-> [[usize; 5]; 4]"):
                yield path, f"{name} gives a number for none, yes, no or a kind"
        for name in re.findall(r"const (PLUS|MINUS|TIMES|LESS|EQUAL|DIFFER|ADDED|TAKEN|AT_MOST|AT_LEAST|EXACTLY|NONE|FULL|NO|YES|ALWAYS|BAD): \[?(?:u64|i64|usize)\b", plain):
            yield path, f"{name} is a number for a kind, an answer or none"
        for _ in re.findall(r"else \{\s*return None;\s*\}", plain):
            yield path, "None is handed on by hand"


def shape(body):
    words = re.findall(r"[A-Za-z_]\w*|\d\w*|\S", body)
    keep = {"if", "else", "match", "let", "return", "Some", "None", "Ok", "Err", "for", "while", "loop", "in", "mut", "true", "false", "as"}
    return " ".join(w if w in keep else ("x" if re.match(r"[A-Za-z_]", w) else ("0" if w[0].isdigit() else w)) for w in words)


def point_2():
    groups = collections.defaultdict(list)
    for path, text in sources():
        crate = path.split("/")[1]
        if crate.endswith("_cases"):
            continue
        for name, params, result, body in functions(text):
            if len(shape(body).split()) >= 8:
                groups[(crate, shape(body))].append(f"{os.path.basename(path)[:-3]}::{name}")
    for (crate, _), names in sorted(groups.items()):
        if len(names) > 1:
            yield crate, f"{len(names)} alike: " + ", ".join(names)


def point_3():
    for path, text in sources():
        lines = code(text).split("\n")
        for i, line in enumerate(lines):
            if re.match(r"\s*('\w+: )?(while\b|loop \{)", line):
                yield path, line.strip()
            if re.match(r"\s*for \w+ in [^.{]*\{", line) and re.search(r"\b\w+ \+= 1;", block(lines[i:])):
                yield path, line.strip()
            counted = re.match(r"\s*for (\w+) in [^{]*\.\.", line)
            if counted and re.search(r"\[[^\]]*\b%s\b[^\]]*\]" % counted.group(1), block(lines[i:])):
                yield path, line.strip()


def block(lines):
    """The lines of a block that begins in the first of these, that line left out."""
    depth, inside = 0, []
    for line in lines:
        depth += line.count("{") - line.count("}")
        if depth <= 0:
            break
        inside.append(line)
    return "\n".join(inside[1:])


def point_4():
    for path, text in sources():
        for name, params, result, body in functions(text):
            arms = re.findall(r"=> (.*)$", body, re.M)
            if re.match(r"\s*match [\w().\[\]]+ \{", body) and body.rstrip().endswith("}") and body.count("match") == 1 and arms and all(re.match(r"(Some\()?[\w:]+(\(\))?\)?,$|-?\d+,$|None,$", a) for a in arms):
                yield path, f"{name} turns one into another"
        if path.endswith("lines.rt"):
            for name, params, *_ in functions(text):
                if "&mut [u8" in params:
                    yield path, f"{name} prints by hand"
        for name in re.findall(r"fn (value_of|amount|verdict|index_below|(?:number|condition|over|sum|constraint|line)_words|told)\(", code(text)):
            yield path, f"{name} turns one into another"


def point_5():
    facts = collections.defaultdict(set)
    shared = collections.defaultdict(set)
    for path, text in sources():
        crate = path.split("/")[1]
        for name, own in clauses(text):
            for clause in own:
                facts[(crate, re.sub(r"^(requires|ensures) \w+ ", r"\1 ", clause))].add(name)
        for name, params, result, body in functions(text):
            names = tuple(p.split(":")[0] for p in params.split(", ") if ":" in p)
            for i in range(len(names)):
                for j in range(i + 3, len(names) + 1):
                    shared[(crate, names[i:j])].add(name)
    for (crate, clause), names in sorted(facts.items()):
        if len(names) >= 3:
            yield crate, f"{len(names)} functions: {clause}"
    wide = {k: v for k, v in shared.items() if len(v) >= 3}
    for (crate, names), users in sorted(wide.items()):
        inside = any(c == crate and len(n) > len(names) and " ".join(names) in " ".join(n) and u >= users for (c, n), u in wide.items())
        if not inside:
            yield crate, f"{len(users)} functions take ({', '.join(names)})"


def point_6():
    for path, text in sources():
        plain = code(text)
        for m in STRUCT.finditer(plain):
            if re.search(r": \[.*; ", m.group(2)) and re.search(r": usize", m.group(2)):
                yield path, f"struct {m.group(1)} is a buffer with a length beside it"
        for name, params, result, body in functions(text):
            if re.search(r"\[0u(8|32); [^0\]]+\]", body) and re.search(r"\.\.", body):
                yield path, f"{name} uses the first or last part of a buffer"


def point_7():
    for path, text in sources():
        for line in code(text).split("\n"):
            if re.search(r"\bdyn\b|: fn\(|impl Fn|\bdeep: bool", line):
                yield path, line.strip()


def main():
    wanted = [int(p) for p in sys.argv[1:]] or range(1, 8)
    for p in wanted:
        places = list(globals()[f"point_{p}"]())
        print(f"point {p}: {len(places)}")
        for path, what in places:
            print(f"  {path}: {what}")


if __name__ == "__main__":
    main()
