#!/usr/bin/env python3
"""Respells this repository's own definitions, lemmas and types: words in snake case, types in camel case.

usage: python3 tools/respell.py [--check] [FOLDER]

Run it once, after the spelling of the toolchain has been turned. Names of the toolchain's library stay, and so do
code, strings and comments; code spans of README.md and docs/ turn. With --check it changes nothing, and lists the
names, and those that would fall together with others.
"""

import os
import re
import sys

TOKEN = re.compile(r"(?<![\w'-])[A-Za-z][\w']*(?:-[\w']+)+(?![\w-])")
WORD = re.compile(r"[A-Za-z_][\w'-]*")
IMPORT = re.compile(r"\buse\s+([\w.+'-]+)\.\{([^}]*)\}", re.S)
DEFINES = re.compile(r"^\s*(?:(?:abbrev|unfoldable|pub|private|record|data|ruleset)\s+)*((?:[A-Za-z][\w'-]*\s+)*[A-Za-z][\w'-]*)\s*(?::(?!=)|\(|\{)", re.M)
CLAUSE = re.compile(r"\b(?:requires|ensures|ghost)\b[^{;]*\{|\bghost\s+use\b")
PARTS = {"getD": "get_or", "reverseAux": "reverse_aux", "takeN": "take"}
# A name that would fall together with another.
OWN = {"Is-node": "IsNodeNumber"}


def texts(root):
    for folder, dirs, files in os.walk(os.path.join(root, "crates")):
        dirs[:] = sorted(d for d in dirs if d not in ("out", "must-fail"))
        for name in sorted(files):
            if name.endswith((".antt", ".rt")):
                yield os.path.join(folder, name)


def pages(root):
    yield os.path.join(root, "README.md")
    for name in sorted(os.listdir(os.path.join(root, "docs"))):
        if name.endswith(".md"):
            yield os.path.join(root, "docs", name)


def is_of_function(path):
    """Whether the file belongs to the proof of one function: names in it are mostly the toolchain's."""
    return "as goal" in open(path, encoding="utf-8").read()


def code_parts(path, text):
    """The text as pieces, with whether each may turn."""
    if path.endswith(".antt"):
        for line in text.splitlines(keepends=True):
            m = re.search(r"(?:^|(?<=\s))--(?=\s|$).*", line)
            cut = m.start() if m else len(line)
            yield line[:cut], True
            yield line[cut:], False
        return
    at = 0
    for m in CLAUSE.finditer(text):
        if m.start() < at:
            continue
        end = text.index(";", m.end()) if m[0].endswith("use") else closed(text, m.end())
        yield text[at : m.start()], False
        yield text[m.start() : end], True
        at = end
    yield text[at:], False


def closed(text, at):
    depth = 1
    while depth and at < len(text):
        depth += {"{": 1, "}": -1}.get(text[at], 0)
        at += 1
    return at


def new_name(old):
    if old in OWN:
        return OWN[old]
    parts = [PARTS.get(p, p) for p in old.split("-")]
    if parts[0][0].isupper():
        return parts[0] + "".join(p[0].upper() + p[1:] for p in parts[1:])
    return "_".join(parts)


def main(argv):
    check = "--check" in argv
    argv = [a for a in argv if a != "--check"]
    root = argv[0] if argv else "."
    crates = set(os.listdir(os.path.join(root, "crates")))
    files = {p: open(p, encoding="utf-8").read() for p in texts(root)}
    library, own = set(), set()
    for path, text in files.items():
        for m in IMPORT.finditer(text):
            parts = m[1].split(".")
            mine = parts[0] == "Rattle" and len(parts) > 1 and parts[1] in crates
            for item in m[2].split(","):
                names = [n for n in re.split(r"\s+as\s+|\s+", item.strip()) if n]
                if names and not mine:
                    library.add(names[0])
                if len(names) == 2:
                    own.add(names[1])
    for path, text in files.items():
        if not path.endswith(".antt"):
            continue
        code = "".join(t for t, may in code_parts(path, text) if may)
        of_function = is_of_function(path)
        for m in DEFINES.finditer(code):
            goal = re.match(r"\s*(?:[^\n]*?)goal\.", code[m.end() :])
            for name in m[1].split():
                if "-" in name and not (of_function and goal):
                    own.add(name)
        if not of_function:
            own.update(t for t in TOKEN.findall(code) if "proofs" in path or "specs" in path)
    both = sorted(own & library)
    table = {n: new_name(n) for n in own - library if "-" in n}
    every = set()
    for path, text in files.items():
        for t, may in code_parts(path, text):
            if may:
                every.update(WORD.findall(t))
    clash = sorted(n for n, to in table.items() if to in every and to != n)
    news = {}
    for n, to in table.items():
        news.setdefault(to, []).append(n)
    clash += sorted(n for to, ns in news.items() if len(ns) > 1 for n in ns)
    print(f"respell: {len(table)} names; of the library and here: {' '.join(both) or 'none'}")
    if check:
        print("respell: falls together: " + " ".join(f"{n}->{table[n]}" for n in clash))
        for n in sorted(table):
            print(f"{n}\t{table[n]}")
        return 0
    for path in pages(root):
        text = open(path, encoding="utf-8").read()
        new = re.sub(r"`[^`\n]+`", lambda m: TOKEN.sub(lambda n: table.get(n[0], n[0]), m[0]), text)
        with open(path, "w", encoding="utf-8") as f:
            f.write(new)
    for path, text in files.items():
        of_function = path.endswith(".antt") and is_of_function(path)
        out = []
        for t, may in code_parts(path, text):
            out.append(TOKEN.sub(lambda m: turned(m, t, table, of_function), t) if may else t)
        new = "".join(out)
        if new != text:
            with open(path, "w", encoding="utf-8") as f:
                f.write(new)
    return 0


def turned(m, text, table, of_function):
    """A name made by the toolchain stays: behind `goal.`, `c.` and the like, and where a goal is answered."""
    if of_function:
        before = text[: m.start()]
        if before.endswith(("goal.", "Goals.", "Given.")) or re.search(r"(?:^|[^\w.'])(?:c|l|w|g|goal)\.$", before):
            return m[0]
        if re.match(r"\s*:\s*goal\.", text[m.end() :]) or (not before.strip() and re.match(r"(?:\s+[\w'{}]+)*\s*=", text[m.end() :])) and m[0].startswith(MADE):
            return m[0]
    return table.get(m[0], m[0])


MADE = ("loop-", "returns-", "invariant-", "decreases-", "bounds-", "overflow", "cast-", "slice", "then-", "else-", "in-", "subtract-", "add-", "call-")

if __name__ == "__main__":
    raise SystemExit(main(sys.argv[1:]))
