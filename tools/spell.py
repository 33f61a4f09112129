#!/usr/bin/env python3
"""Brings the names of this repository's own definitions and lemmas to today's spelling.

usage: python3 tools/spell.py        at the top of the repository, once, after the kit's port.py

Types are in upper camel case (All-right becomes AllRight); functions, lemmas, fields and constructors are in snake case
(ceiling-of becomes ceiling_of). Names of goals, which the check makes, are left. Code of src/ is left but for its clauses;
comments, strings, must-fail edits and data are left. It stops, with nothing written, where two names would fall together.
"""

import os
import re
import sys

HEAD = re.compile(r"^(\s*)((?:(?:abbrev|unfoldable|pub|record|data|ruleset|mutual)\s+)*)([^\s:(){},;=«»]+)(?=\s+(?:[({].*[)}]\s*)?:\s)")
GOAL = re.compile(r":\s+goal\.")
ALIAS = re.compile(r"\bas ([a-z][\w']*(?:-[\w']+)+)(?=\s*[,};\n])")
NAME = re.compile(r"(?<![\w\-'′·◌])([A-Za-z][\w'′]*(?:-[\w'′]+)+)(?![\w\-'′])")
CLAUSE = re.compile(r"\b(?:requires|ensures|ghost)\b")
# Not-read would fall together with a variant of the enum JobFault.
OTHER = {"Not-read": "IsNotRead"}
# A type that the kit's script takes for a function.
LEFT = {"Goes_on": "GoesOn"}


def files(top, ending):
    for folder, dirs, names in os.walk(os.path.join(top, "crates")):
        dirs[:] = sorted(d for d in dirs if d != "out")
        for name in sorted(names):
            if name.endswith(ending):
                yield os.path.join(folder, name)


def text_of(path):
    with open(path, encoding="utf-8") as f:
        return f.read()


def spelt(name):
    if name in OTHER:
        return OTHER[name]
    parts = name.split("-")
    if name[0].isupper():
        return "".join(p[:1].upper() + p[1:] for p in parts)
    return "_".join(parts)


def definitions(top):
    """The dashed names that are defined, those of them that are fields, and all other names that are defined."""
    dashed, fields, plain = {}, set(), set()
    for path in files(top, ".antt"):
        for line in text_of(path).split("\n"):
            if line.lstrip().startswith("--") or GOAL.search(line):
                continue
            m = HEAD.match(line)
            if not m:
                continue
            name = m.group(3)
            if "-" not in name:
                plain.add(name)
            elif NAME.fullmatch(name):
                dashed[name] = spelt(name)
                if m.group(1):
                    fields.add(name)
    for path in list(files(top, ".antt")) + list(files(top, ".rt")):
        for line in text_of(path).split("\n"):
            if line.lstrip().startswith(("use ", "ghost use ")):
                for name in ALIAS.findall(line):
                    dashed[name] = spelt(name)
    return dashed, fields, plain


def turned(piece, dashed, fields):
    def new(m):
        name = m.group(1)
        if name not in dashed:
            return name
        before = piece[: m.start()]
        if before.endswith("."):
            owner = re.search(r"([\w'·-]+)\.$", before)
            if name not in fields and not (owner and owner.group(1)[0].isupper()):
                return name
        return dashed[name]

    piece = NAME.sub(new, piece)
    for old, name in LEFT.items():
        piece = re.sub(rf"\b{old}\b", name, piece)
    return piece


def in_proof(text, dashed, fields):
    out = []
    for line in text.split("\n"):
        code, dash, comment = line.partition("--")
        out.append(turned(code, dashed, fields) + dash + comment)
    return "\n".join(out)


def in_source(text, dashed, fields):
    """Turns the clauses: from `ghost`, `requires` or `ensures` up to the end of their braces or of the `use` line."""
    out, depth, inside = [], 0, False
    for line in text.split("\n"):
        code, slash, comment = line.partition("//")
        if not inside and CLAUSE.search(code) and not code.lstrip().startswith("#"):
            inside, depth = True, 0
        if inside:
            depth += code.count("{") - code.count("}")
            out.append(turned(code, dashed, fields) + slash + comment)
            if depth <= 0:
                inside = False
        else:
            out.append(line)
    return "\n".join(out)


def main():
    top = os.getcwd()
    dashed, fields, plain = definitions(top)
    news = {}
    for old, new in sorted(dashed.items()):
        if new in plain:
            print(f"falls together: {old} and {new}, which stands")
            news[new] = None
        elif new in news:
            print(f"falls together: {old} and {news[new]}, as {new}")
        news[new] = old
    if "--names" in sys.argv:
        for old, new in sorted(dashed.items()):
            print(old, new)
        return
    count = 0
    for ending, turn in ((".antt", in_proof), (".rt", in_source)):
        for path in files(top, ending):
            old = text_of(path)
            new = turn(old, dashed, fields)
            if new != old:
                count += 1
                with open(path, "w", encoding="utf-8") as f:
                    f.write(new)
    print(f"{len(dashed)} names, {count} files")


main()
