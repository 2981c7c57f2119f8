#!/usr/bin/env python3
"""Respells the repository's own names of definitions and lemmas: words in snake case, facts and types in camel case.

usage: tools/respell.py [--list]     at the top of the repository; --list only prints what would change

A name is the repository's own if a file of specs/ or proofs/ declares it. Names that a library or the check makes keep their spelling.
"""

import collections
import os
import re
import sys

NAME = r"[^\s(){}\[\];,.\"`@:=|]+"
MARKS = r"(?:(?:pub|abbrev|unfoldable|opaque|instance|let|in)\s+)*"
DECLARED = re.compile(rf"^\s*{MARKS}(?:(record|data)\s+)?({NAME})(?:\s+[({{][^=]*?)?\s*:(?:\s|$)(.*)$")
WITHOUT_TYPE = re.compile(rf"^\s*(?:where\s+|let\s+|in\s+let\s+)({NAME})\s[^:]*=")
IMPORTED = re.compile(r"\buse\s+([^\s{]+)\.\{([^}]*)\}")
TOKEN = re.compile(r"[\w'+*<>=≤≡◌ℕℤ-]+")
OWN = re.compile(r"Rattle\.(words|kind|leads|conductors|picks|drums|temps|layers|table|page|lines|rules|sheet|guess|cases|book|commission|tests)\b")


def sources():
    for folder, dirs, names in os.walk("crates"):
        dirs[:] = sorted(d for d in dirs if d not in ("out", "target"))
        for name in sorted(names):
            if name.endswith((".antt", ".rt", ".edit")):
                yield os.path.join(folder, name)


def plain(line):
    return re.sub(r"(^|\s)(--|//).*", "", line)


def spelled(name):
    parts = name.split("-")
    if name[0].isupper():
        return "".join(p[:1].upper() + p[1:] for p in parts)
    return "_".join(parts)


def functions(texts):
    """The names of functions of each crate's src/."""
    found = collections.defaultdict(set)
    for path, text in texts.items():
        if path.endswith(".rt"):
            found[path.split(os.sep)[1]] |= set(re.findall(r"\bfn\s+(\w+)", text))
    return found


def answers(path):
    """A file that answers goals of one function: what it declares is named by the check."""
    parts = path.split(os.sep)
    return len(parts) > 4 and parts[2] == "proofs"


def own_names(texts):
    """The new spelling of each name that the repository declares. One that would have a function's name gets _lem."""
    names, kept = collections.defaultdict(set), set()
    for path, text in texts.items():
        for source, listed in IMPORTED.findall(text):
            if not OWN.match(source) or ".Goals" in source or ".Given" in source:
                kept |= {w.strip().split(" as ")[0] for w in listed.split(",")}
        if not path.endswith(".antt"):
            continue
        for line in text.split("\n"):
            line = plain(line)
            found = DECLARED.match(line)
            if found and "-" in found[2] and re.match(r"[A-Za-z]", found[2]):
                if "goal." in found[3] or (answers(path) and line[:1] not in " p"):
                    kept.add(found[2])
                else:
                    names[found[2]].add(path)
            found = WITHOUT_TYPE.match(line)
            if found and "-" in found[1] and re.match(r"[A-Za-z]", found[1]):
                names[found[1]].add(path)
    functions_of = functions(texts)
    turned = {}
    for name, paths in names.items():
        if name not in kept:
            new = spelled(name)
            taken = new in kept or any(new in functions_of[p.split(os.sep)[1]] for p in paths)
            turned[name] = new + "_lem" if taken else new
    return turned


def main(argv):
    texts = {p: open(p, encoding="utf-8").read() for p in sources()}
    turned = own_names(texts)
    tokens = collections.defaultdict(set)
    for path, text in texts.items():
        for line in text.split("\n"):
            for word in TOKEN.findall(plain(line)):
                tokens[word].add(path)
    back = collections.defaultdict(set)
    for old, new in turned.items():
        back[new].add(old)
    for new, olds in sorted(back.items()):
        if len(olds) > 1 or new in tokens:
            print(f"look: {', '.join(sorted(olds))} -> {new}, which stands in {', '.join(sorted(tokens.get(new, [])))[:300]}")
    if "--list" in argv:
        for old, new in sorted(turned.items()):
            print(old, new)
        return 0
    pattern = re.compile(r"(?<![\w'-])(" + "|".join(sorted(map(re.escape, turned), key=len, reverse=True)) + r")(?![\w'-])")
    for path, text in texts.items():
        new = pattern.sub(lambda m: turned[m[1]], text)
        if new != text:
            with open(path, "w", encoding="utf-8") as f:
                f.write(new)
    print(f"{len(turned)} names respelled")
    return 0


if __name__ == "__main__":
    raise SystemExit(main(sys.argv[1:]))
