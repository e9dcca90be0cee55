#!/usr/bin/env python3
"""Counts the places in crates/*/src that docs/DESIGN-PASS.md speaks of, a line for each place.

    tools/forms.py [--counts] [TOP] [POINT..]

TOP is a checkout (this one, where none is named), a POINT one of 1 to 7 (all, where none is named)."""
import os, re, sys
from collections import defaultdict


def sources(top):
    crates = os.path.join(top, "crates")
    for crate in sorted(os.listdir(crates)):
        folder = os.path.join(crates, crate, "src")
        for name in sorted(os.listdir(folder)) if os.path.isdir(folder) else []:
            yield crate, f"{crate}/{name}", open(os.path.join(folder, name), encoding="utf-8").read()


def functions(text):
    """Each function: its line, name, parameters, result, clauses, body."""
    for m in re.finditer(r"^( *)(?:pub(?:\([a-z]+\))? )?(?:extern \"C\" )?fn (\w+)", text, re.M):
        end = text.find("\n" + m.group(1) + "}", m.end())
        whole = text[m.start() : end]
        at = whole.find("\n" + m.group(1) + "{")
        head, body = (whole[:at], whole[at:]) if at >= 0 else whole.partition("{")[::2]
        clauses = re.findall(r"(?:requires|ensures)(?: \w+)? \{(.*)\}", head.replace("\n", " ").replace(" requires", "\nrequires").replace(" ensures", "\nensures"))
        signature = re.split(r"\n *(?:requires|ensures)", head)[0]
        yield text.count("\n", 0, m.start()) + 1, m.group(2), re.sub(r"\s+", " ", signature), clauses, body


def facts(clause):
    depth, part, parts = 0, "", []
    for c in clause:
        depth += (c == "(") - (c == ")")
        if c == "×" and depth == 0:
            parts.append(part)
            part = ""
        else:
            part += c
    return [re.sub(r"^\((.*)\)$", r"\1", p.strip()) for p in parts + [part]]


def parameters(signature):
    inside = signature[signature.find("(") + 1 :]
    return {p.strip().removeprefix("mut ") for p in re.findall(r"[\w ]+: [^,()]+(?=[,)])", inside.split(" -> ")[0] + ")")}


def point1(crate, file, text):
    for m in re.finditer(r"^(?:pub )?enum (\w+)", text, re.M):
        yield m.start(), f"enum {m.group(1)}"
    for m in re.finditer(r"struct (\w+)[^{;]*\{([^}]*)\}", text):
        for f in re.finditer(r"(\w+): bool", m.group(2)):
            yield m.start(2) + f.start(), f"flag {m.group(1)}.{f.group(1)}"
        for f in re.finditer(r"\bstatus: u8", m.group(2)):
            yield m.start(2) + f.start(), f"number {m.group(1)}.status"
        for f in re.finditer(r"\bline: usize", m.group(2)):
            yield m.start(2) + f.start(), f"number {m.group(1)}.line"
    for m in re.finditer(r"fn (\w*status\w*|refused|judge|turn|count|list|refuse|end_of|when)\([^{]*?-> u8", text):
        yield m.start(), f"number of {m.group(1)}"
    for m in re.finditer(r"\b(?:kind|policy|stage) (?:==|!=|<=|<) \d|\d (?:<|<=) [\w.]*(?:kind|policy|stage)\b", text):
        yield m.start(), f"number {m.group(0)}"


def point3(crate, file, text):
    for m in re.finditer(r"^ *while (.*) \{$", text, re.M):
        yield m.start(), f"while {m.group(1)}"


def point4(crate, file, text):
    for m in re.finditer(r"fn (\w+)\(\w+: (u8|u32|usize)\) -> (\w+)[^{]*(?:\{[^\n]*\}\n)?\s*\{\s*\w+ as \w+\s*\}", text):
        yield m.start(), f"cast {m.group(1)}"
    for m in re.finditer(r"(\b[\w.\[\]]+) as (u64|usize|u32)\b", text):
        yield m.start(), f"cast {m.group(0)}"
    for m in re.finditer(r"\b([A-Z]\w+) \{((?:[^{}]|\{[^{}]*\})*)\}", text):
        same = re.findall(r"\b(\w+): (\w+)\.(?:\w+\.)?\1\b", m.group(2))
        if len(same) >= 2:
            yield m.start(), f"copy {m.group(1)}"
    for m in re.finditer(r"fn (same_\w+|equal)\(", text):
        yield m.start(), f"equality {m.group(1)}"
    for m in re.finditer(r"^ *let (\w+) = (\w+)\.(\w+);$", text, re.M):
        yield m.start(), f"copy {m.group(0).strip()}"


def point7(crate, file, text):
    for line, name, signature, clauses, body in functions(text):
        steps = len(re.findall(r"(?:kind|op|policy) == ", body)) + len(re.findall(r"\n +(?:\d+|b'.')(?: \| b'.')* =>", body))
        if steps >= 3:
            yield line, f"switch {name}"


def point2(top):
    bodies = defaultdict(list)
    for crate, file, text in sources(top):
        for line, name, signature, clauses, body in functions(text):
            code = re.sub(r"//.*", "", body)
            code = re.sub(r"b\"[^\"]*\"|b'[^']*'|\b\d+\w*\b|\b(?:u8|u32|u64|usize)\b", "_", code)
            code = re.sub(r"\b[A-Z][A-Z_]+\b", "_", code)
            order = {}
            code = re.sub(r"\b[a-z_]\w*\b", lambda m: order.setdefault(m.group(0), f"v{len(order)}") if m.group(0) not in ("if", "return", "let", "mut", "while", "for", "in", "match", "as") else m.group(0), code)
            code = re.sub(r"\s+", "", code)
            if len(code) > 24:
                bodies[code].append(f"{file}:{line} {name}")
    return [", ".join(b) for b in bodies.values() if len(b) > 1]


def point5(top):
    where, takes = defaultdict(set), defaultdict(set)
    for crate, file, text in sources(top):
        for line, name, signature, clauses, body in functions(text):
            for clause in clauses:
                for fact in facts(clause):
                    if "result" not in fact and len(fact) > 3:
                        where[re.sub(r"\.(now|old)", "", fact)].add(f"{crate}::{name}")
            for p in parameters(signature):
                takes[re.sub(r"&('\w+ )?(mut )?", "", p)].add(f"{crate}::{name}")
    places = [f"fact {f}: {len(w)} functions" for f, w in sorted(where.items(), key=lambda x: -len(x[1])) if len(w) >= 3]
    names = sorted(takes)
    for i, p in enumerate(names):
        for q in names[i + 1 :]:
            both = takes[p] & takes[q]
            if len(both) >= 4 and len(both) * 5 >= len(takes[p] | takes[q]) * 4:
                places.append(f"together {p}, {q}: {len(both)} functions")
    return places


def point6(top):
    places = []
    for crate, file, text in sources(top):
        for line, name, signature, clauses, body in functions(text):
            given = parameters(signature)
            arrays = [p for p in given if re.search(r": &?('\w+ )?(mut )?(\[|Slots)", p)]
            counts = [p for p in given if re.match(r"(count|n|length|len|left): (usize|u8)", p)]
            if arrays and counts:
                places.append(f"{file}:{line} {name}: {', '.join(sorted(arrays + counts))}")
    return places


def main():
    arguments = [a for a in sys.argv[1:] if a != "--counts"]
    top = next((a for a in arguments if not a.isdigit()), os.path.join(os.path.dirname(os.path.abspath(__file__)), ".."))
    wanted = [a for a in arguments if a.isdigit()] or list("1234567")
    each = {"1": point1, "3": point3, "4": point4, "7": point7}
    whole = {"2": point2, "5": point5, "6": point6}
    for point in wanted:
        if point in whole:
            places = whole[point](top)
        else:
            places = []
            for crate, file, text in sources(top):
                # without contracts: a number that a clause names stands in its definition
                text = "\n".join("" if re.match(r" *(requires|ensures|×)", line) else line for line in text.split("\n"))
                for at, what in each[point](crate, file, text):
                    line = at if point == "7" else text.count("\n", 0, at) + 1
                    places.append(f"{file}:{line} {what}")
        print(f"point {point}: {len(places)} places")
        if "--counts" not in sys.argv:
            print("".join(f"  {p}\n" for p in places), end="")


main()
