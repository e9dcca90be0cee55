#!/usr/bin/env python3
"""Respells the names of definitions and lemmas in snake case: `withThreads` becomes `with_threads`, `rowOf-length` `row_of-length`.

    tools/respell.py [TOP]

Types, modules and facts keep their capital, functions of src/ have none, and a name of the library with a capital after `_`
(`uint_Makes`) stays. It goes over the sources, specifications, proofs and must-fail edits of crates/, and over the names in
backquotes of the pages. Run again, it changes nothing. Names that fall together with one that stood before are printed first:
all of them are a definition and the function whose answer it says, which live apart.
"""
import os
import re
import sys

WORD = re.compile(r"(?<![A-Za-z0-9_'.])[a-z][a-z0-9']*(?:_[a-z0-9']+)*(?:[A-Z][a-z0-9']*)+(?![A-Za-z_])|(?<=\.)[a-z][a-z0-9']*(?:[A-Z][a-z0-9']*)+(?![A-Za-z_])")
PAGES = ("README.md", "CONTRIBUTING.md", "CHANGELOG.md", "docs/DECISIONS.md", "docs/PERFORMANCE.md", "docs/STATEMENTS.md")


def snake(word):
    return re.sub(r"([A-Z])", lambda m: "_" + m.group(1).lower(), word)


def respelled(text):
    return WORD.sub(lambda m: snake(m.group(0)), text)


def page(text):
    return re.sub(r"`[^`\n]*`", lambda m: respelled(m.group(0)), text)


def source(text):
    """Texts between quotes are what a program prints: they stay."""
    return re.sub(r'("(?:[^"\\\n]|\\.)*")|[^"]+|"', lambda m: m.group(0) if m.group(1) else respelled(m.group(0)), text)


def files(top):
    for folder, inner, names in os.walk(os.path.join(top, "crates")):
        inner[:] = [d for d in inner if d not in ("out", "data")]
        for name in sorted(names):
            if name.endswith((".antt", ".rt", ".edit")):
                yield os.path.join(folder, name)


def main():
    top = sys.argv[1] if len(sys.argv) > 1 else os.path.join(os.path.dirname(os.path.abspath(__file__)), "..")
    before, camel = set(), set()
    for path in files(top):
        text = open(path, encoding="utf-8").read()
        before.update(re.findall(r"[A-Za-z_][A-Za-z0-9_']*", text))
        camel.update(WORD.findall(text))
    for word in sorted(camel):
        if snake(word) in before:
            print(word, snake(word))
    changed = 0
    for path in list(files(top)) + [os.path.join(top, p) for p in PAGES if os.path.exists(os.path.join(top, p))]:
        text = open(path, encoding="utf-8").read()
        new = source(text) if path.endswith((".rt", ".edit")) else page(text) if path.endswith(".md") else respelled(text)
        if new != text:
            open(path, "w", encoding="utf-8").write(new)
            changed += 1
    print(changed, "files changed")


if __name__ == "__main__":
    main()
