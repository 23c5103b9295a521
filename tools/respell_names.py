#!/usr/bin/env python3
"""Turns the repository's own names of specs/ and proofs/ to Rattle's spelling: usage: respell_names.py [FOLDER], the repository by default.

respelled_names.tsv beside it lists each old name with its new one: words in snake case, types and facts in camel case, and a
dash only where a lemma's name joins a definition's name and another. Comments and strings, Rust's identifiers (which have no
dash) and the names that Rattle makes of code (fields of an answer's argument) stay as they are.
"""

import os
import re
import sys

HERE = os.path.dirname(os.path.realpath(__file__))
WORD = re.compile(r"[^\s(){}\[\],;.\"λ∷≡¬→×⊎∥⌜⌝|=:&!?<>+*/]+")


def table():
    with open(os.path.join(HERE, "respelled_names.tsv"), encoding="utf-8") as f:
        return dict(line.rstrip("\n").split("\t") for line in f)


def code(names, text, fields):
    """The text with each old name turned; a name behind a dot only where a path or a field of the repository's own stands there."""

    def turn(m):
        word, i = m[0], m.start()
        if word not in names:
            return word
        if i and text[i - 1] == ".":
            front = re.search(r"([^\s(){}\[\],;.\"]+)\.$", text[:i])
            path = front and front[1][:1].isupper()
            if not path and word not in fields:
                return word
        return names[word]

    return WORD.sub(turn, text)


def antt(names, text, fields):
    out = []
    for line in text.split("\n"):
        m = re.search(r"(^|\s)--(\s|$)", line)
        at = m.start() if m else len(line)
        parts = re.split(r'("(?:[^"\\]|\\.)*")', line[:at])
        out.append("".join(p if p.startswith('"') else code(names, p, fields) for p in parts) + line[at:])
    return "\n".join(out)


def rust(names, text, fields):
    piece = re.compile(r'//[^\n]*|b?"(?:[^"\\]|\\.)*"')
    out, at = [], 0
    for m in piece.finditer(text):
        out += [code(names, text[at : m.start()], fields), m[0]]
        at = m.end()
    return "".join(out) + code(names, text[at:], fields)


def sources(root):
    for folder, dirs, files in os.walk(os.path.join(root, "crates")):
        dirs[:] = sorted(d for d in dirs if d != "out")
        for name in sorted(files):
            if name.endswith((".antt", ".rt", ".edit")):
                yield os.path.join(folder, name)


def record_fields(root, names):
    """The old names that are fields of a record: the indented lines below a line that declares one."""
    found = set()
    for path in sources(root):
        if path.endswith(".antt"):
            depth = None
            with open(path, encoding="utf-8") as f:
                for line in f:
                    indent = len(line) - len(line.lstrip())
                    if line.strip() and depth is not None and indent <= depth:
                        depth = None
                    if re.match(r"\s*(pub\s+)?record\s", line):
                        depth = indent
                    elif depth is not None and (m := re.match(r"\s+(?:pub\s+)?(\S+)\s*:", line)) and m[1] in names:
                        found.add(m[1])
    return found


def main(argv):
    root = argv[0] if argv else os.path.dirname(HERE)
    names = table()
    fields = record_fields(root, names)
    for path in sources(root):
        with open(path, encoding="utf-8") as f:
            old = f.read()
        new = (antt if path.endswith(".antt") else rust)(names, old, fields)
        if new != old:
            with open(path, "w", encoding="utf-8") as f:
                f.write(new)


if __name__ == "__main__":
    main(sys.argv[1:])
