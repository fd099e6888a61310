#!/usr/bin/env python3
"""Respells the repository's own definitions and lemmas in snake case, by the table respelled.tsv beside it: once, behind port.py.

usage: python3 tools/respell.py [ROOT]

A name stands for itself where it is a whole token of a definition, a clause or a proof; in a comment and on a page where it is quoted.
Code, strings, inputs and outputs keep theirs. In a proof of one function a name behind a dot is a field that Rattle makes, unless one of
our records has it.
"""

import os
import re
import sys

HERE = os.path.dirname(os.path.realpath(__file__))
TOKEN = re.compile(r"[^\s(){}\[\];,.`\"|]+")


def table():
    with open(os.path.join(HERE, "respelled.tsv"), encoding="utf-8") as f:
        return dict(line.rstrip("\n").split("\t") for line in f)


def files(top, *endings):
    for folder, dirs, names in os.walk(top):
        dirs[:] = sorted(d for d in dirs if d not in ("out", "target", ".git"))
        for name in sorted(names):
            if name.endswith(endings):
                yield os.path.join(folder, name)


def own_fields(root):
    """The fields of the records of specs/ and of the lemmas."""
    found = set()
    for path in files(os.path.join(root, "crates"), ".antt"):
        if re.search(r"/proofs/.*/(Proof|Invariants|Answers)\.antt$", path):
            continue
        inside = False
        for line in open(path, encoding="utf-8"):
            if re.match(r"\S", line):
                inside = bool(re.match(r"(pub )?record ", line))
            m = re.match(r"  (?:pub )?(\S+) :", line)
            if inside and m:
                found.add(m[1])
    return found


def tokens(text, names, keeps):
    def turn(m):
        word = m[0]
        if word not in names or (keeps and m.start() and text[m.start() - 1] == "." and word in keeps):
            return word
        return names[word]

    return TOKEN.sub(turn, text)


def quoted(text, names):
    return re.sub(r"`[^`\n]+`", lambda m: tokens(m[0], names, None), text)


def logic(text, names, keeps=None):
    """antt: code whole, comments where they quote."""
    out = []
    for line in text.split("\n"):
        m = re.match(r"(.*?)(--.*)?$", line)
        if m[2] and (not m[1] or m[1][-1].isspace()):
            out.append(tokens(m[1], names, keeps) + quoted(m[2], names))
        else:
            out.append(tokens(line, names, keeps))
    return "\n".join(out)


def clause(line):
    return re.match(r"\s*(pub )?(ghost use |requires\b|ensures\b|ghost )", line)


def source(text, names):
    """Rattle: ghost imports and clauses whole, a clause to its last brace; comments where they quote."""
    out, deep = [], 0
    for line in text.split("\n"):
        m = re.match(r"(\s*//)", line)
        if m:
            out.append(quoted(line, names))
        elif deep > 0 or clause(line):
            deep += line.count("{") - line.count("}")
            out.append(tokens(line, names, None))
        else:
            out.append(line)
    return "\n".join(out)


def page(text, names):
    """Markdown: what is quoted, and blocks of code."""
    out, inside = [], False
    for line in text.split("\n"):
        if line.startswith("```"):
            inside = not inside
            out.append(line)
        else:
            out.append(tokens(line, names, None) if inside else quoted(line, names))
    return "\n".join(out)


def moved(root):
    """Rattle makes a module `specs.contracts`, so that a file of that name has another."""
    old = os.path.join(root, "crates/calls/specs/Contracts.antt")
    if not os.path.isfile(old):
        return
    os.rename(old, os.path.join(root, "crates/calls/specs/Promises.antt"))
    for path in [*files(os.path.join(root, "crates"), ".antt", ".rt"), *files(os.path.join(root, "docs"), ".md")]:
        with open(path, encoding="utf-8") as f:
            old = f.read()
        new = re.sub(r"calls([./])specs\1Contracts\b", r"calls\1specs\1Promises", old)
        if path.endswith("calls/specs/Lib.antt"):
            new = new.replace("pub mod Contracts\n", "pub mod Promises\n")
        if new != old and "/changes/" not in path:
            with open(path, "w", encoding="utf-8") as f:
                f.write(new)


def main(root):
    moved(root)
    names = table()
    fields = own_fields(root)
    made = set(names) - fields
    for path in files(os.path.join(root, "crates"), ".antt", ".rt", ".edit"):
        with open(path, encoding="utf-8") as f:
            old = f.read()
        if path.endswith(".rt"):
            new = source(old, names)
        elif path.endswith(".edit"):
            new = "\n".join(tokens(l, names, None) if l.startswith(("old:", "new:")) else l for l in old.split("\n"))
        else:
            one = re.search(r"/proofs/.*/(Proof|Invariants|Answers)\.antt$", path)
            new = logic(old, names, made if one else None)
        if new != old:
            with open(path, "w", encoding="utf-8") as f:
                f.write(new)
    pages = [os.path.join(root, "README.md"), *files(os.path.join(root, "docs"), ".md")]
    edits = files(os.path.join(root, "tests", "wrong_definitions"), ".edit")
    for path in [*pages, *edits]:
        if not os.path.isfile(path) or "/changes/" in path or path.endswith("PORT.md"):
            continue
        with open(path, encoding="utf-8") as f:
            old = f.read()
        new = page(old, names) if path.endswith(".md") else tokens(old, names, None)
        if new != old:
            with open(path, "w", encoding="utf-8") as f:
                f.write(new)


if __name__ == "__main__":
    main(sys.argv[1] if len(sys.argv) > 1 else ".")
