#!/usr/bin/env python3
"""Spells this repository's own definitions and lemmas as today's Rattle does: words, fields, constructors and lemmas in snake case, types in camel case.

usage: python3 tools/respell.py            at the top of the repository, once, after the kit's port.py

It goes by text. Names that Rattle makes (the goals and steps of a proof) keep their dashes, and so do names of the kit's library.
A lemma that would get the name of a function of its crate gets `_lem`. Comments and strings stay as they are, but for names in back quotes in README.md and docs/.
It prints each file in which two names would fall together.
"""

import os
import re
import sys

NAME = r"[^\W\d][\w'′]*(?:-[\w'′]+)*"
TOKEN = re.compile(NAME)
DECLARED = re.compile(rf"^ *(?:(?:pub|abbrev|unfoldable|data|record) )*({NAME})(?=(?: [\(\{{][^(){{}}]*[\)\}}])* :)", re.M)
LABEL = re.compile(rf"^(?:abbrev )?(?:pub )?({NAME}) : goal\.", re.M)
FUNCTION = re.compile(r"\bfn (\w+)")
QUIET = re.compile(r'"(?:[^"\\]|\\.)*"|--(?=\s|$)[^\n]*|//[^\n]*')
HEADS = {"c", "g", "l", "w", "goal"}
ALIAS = re.compile(rf" as ({NAME})(?=[,;\s}}])")
USE = re.compile(r"\buse [^\s{;]+(\{[^}]*\})?")
QUOTED = re.compile(r"`([^`\n]+)`")


def files(ending):
    for folder, dirs, names in os.walk("crates"):
        dirs[:] = sorted(d for d in dirs if d != "out")
        for name in sorted(names):
            if name.endswith(ending):
                yield os.path.join(folder, name)


def read(path):
    with open(path, encoding="utf-8") as f:
        return f.read()


def is_answer(path):
    return "/proofs/" in path and os.path.basename(path) in ("Answers.antt", "Invariants.antt")


def loud(text):
    """The text without comments and strings."""
    return QUIET.sub(lambda m: " " * len(m.group()), text)


def spelled(name, lemma, functions):
    if name[0].isupper():
        return "".join(part[0].upper() + part[1:] for part in name.split("-"))
    head = "get_or-" if name.startswith("getD-") else ""
    rest = name[5:] if head else name
    new = head + rest.replace("-", "_")
    return new + "_lem" if lemma and new in functions else new


def table():
    """What each declared name with a dash becomes."""
    functions = {}
    for path in files(".rt"):
        functions.setdefault(path.split("/")[1], set()).update(FUNCTION.findall(loud(read(path))))
    rows = {}
    for path in files(".antt"):
        crate, text = path.split("/")[1], loud(read(path))
        labels = set(LABEL.findall(text))
        for name in DECLARED.findall(text):
            if "-" in name and not (is_answer(path) and name in labels):
                new = spelled(name, "/proofs/" in path, functions.get(crate, set()))
                rows[name] = max(rows.get(name, ""), new, key=len)
    return rows


def local(path, text, rows):
    """What the names that only this file has become: parameters, bound names and names that it gives to imports."""
    if is_answer(path):
        return {}
    code = loud(text)
    brought = {n for m in USE.finditer(code) for n in TOKEN.findall(m.group())} - set(ALIAS.findall(code))
    names = set(ALIAS.findall(code)) | (set(TOKEN.findall(code)) if path.endswith(".antt") else set())
    return {n: n.replace("-", "_") for n in names if "-" in n and n[0].islower() and n not in brought and n not in rows}


def turned(path, text, rows):
    rows = rows | local(path, text, rows)
    labels = set(LABEL.findall(text)) if is_answer(path) else set()
    parts, at = [], 0
    code = loud(text)
    for m in TOKEN.finditer(code):
        old = m.group()
        if old not in rows:
            continue
        before = code[: m.start()]
        if is_answer(path):
            head = re.search(r"(?<![\w.'-])(\w+)\.$", before)
            if head and head.group(1) in HEADS:
                continue
            if old in labels and not before.endswith((".", "{", ", ")):
                continue
        parts += [text[at : m.start()], rows[old]]
        at = m.end()
    return "".join(parts) + text[at:]


def main():
    rows = table()
    own = {}
    for path in [*files(".antt"), *files(".rt")]:
        text = read(path)
        names = set(TOKEN.findall(loud(text)))
        for old in sorted(names & rows.keys()):
            if rows[old] in names:
                print(f"together: {path}: {old} and {rows[old]}")
            other = own.setdefault(rows[old], old)
            if other != old:
                print(f"together: {old} and {other} are both {rows[old]}")
        new = turned(path, text, rows)
        if new != text:
            with open(path, "w", encoding="utf-8") as f:
                f.write(new)
    pages = ["README.md"] + [os.path.join("docs", n) for n in sorted(os.listdir("docs")) if n.endswith(".md") and n != "PORT.md"]
    for path in pages:
        text = read(path)
        new = QUOTED.sub(lambda m: "`" + TOKEN.sub(lambda t: rows.get(t.group(), t.group()), m.group(1)) + "`", text)
        if new != text:
            with open(path, "w", encoding="utf-8") as f:
                f.write(new)
    print(f"{len(rows)} names", file=sys.stderr)


main()
