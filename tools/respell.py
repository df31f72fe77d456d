#!/usr/bin/env python3
"""Turns the names that this repository gave its own definitions and laws to today's spelling: snake case.

usage: tools/respell.py    at the top, once, after the kit's port.py

A name that a function or type of the code has, and a name of the library, stays. Of two names that fall together the law,
which had dashes, gets `_lem`. Comments and pages are turned within backquotes alone, and edits that must fail as the code is.
"""
import collections
import os
import re
import sys

TOKEN = re.compile(r"[^\s(){}\[\].,;:`\"|@]+")
DECLARED = re.compile(r"\s*(?:unfoldable |abbrev |pub |private |opaque |data |record )*([^\s:(){}.,]+)(?: [({][^=]*)? :(?:\s|$)")
ALIAS = re.compile(r"\bas ([^\s(){}.,]+)")
TYPED = re.compile(r"\s*(?:pub )?(?:data|record) (?:pub )?([^\s:(){}.,]+)")
IMPORT = re.compile(r"use ([^\s{};]+)\.\{([^}]*)\}")


def read(top):
    files = {}
    for folder, inner, names in os.walk(top):
        inner[:] = [d for d in inner if d not in ("out", ".git", "target")]
        for name in names:
            if name.endswith((".antt", ".rt", ".edit", ".md")):
                path = os.path.join(folder, name)
                with open(path, encoding="utf-8") as f:
                    files[path] = f.read()
    return files


def snake(name):
    return re.sub(r"([a-z0-9])([A-Z])", lambda m: m.group(1) + "_" + m.group(2).lower(), name).replace("-", "_")


def renames(files):
    declared, library = collections.Counter(), set()
    for path, text in files.items():
        if path.endswith(".antt"):
            for line in text.split("\n"):
                for form in (DECLARED, TYPED):
                    m = form.match(line)
                    if m:
                        declared[m.group(1)] += 1
                if line.lstrip().startswith("use "):
                    declared.update(ALIAS.findall(line))
        for m in IMPORT.finditer(text):
            if not m.group(1).startswith("Rattle.") or m.group(1).startswith(("Rattle.std.", "Rattle.core.")):
                library.update(re.split(r"[,\s]+", m.group(2)))
    turn = {}
    for name in declared:
        old = "-" in name or re.search(r"[a-z0-9][A-Z]", name)
        if old and not name[0].isupper() and name not in library and not name.startswith(("invariant-", "decreases-")):
            turn[name] = snake(name)
    taken = {n for n in declared if n not in turn} | {turn[n] for n in turn if "-" not in n}
    for name in sorted(turn):
        if "-" in name and turn[name] in taken:
            turn[name] += "_lem"
    if len(set(turn.values())) < len(turn):
        seen = collections.defaultdict(list)
        for name in turn:
            seen[turn[name]].append(name)
        sys.exit(f"respell: these fall together: {[v for v in seen.values() if len(v) > 1]}")
    return turn


def turned(text, turn):
    def one(m):
        token, before = m.group(0), text[: m.start()]
        if token not in turn or re.search(r"(?:^|[^\w'-])(?:tie|goal)\.$", before[-8:]):
            return token
        return turn[token]

    return TOKEN.sub(one, text)


def in_backquotes(text, turn):
    return re.sub(r"`[^`\n]*`", lambda m: turned(m.group(0), turn), text)


def respell(path, text, turn):
    if path.endswith(".md"):
        return in_backquotes(text, turn)
    mark = {".antt": "--", ".rt": "//", ".edit": "#"}[os.path.splitext(path)[1]]
    lines = []
    for line in text.split("\n"):
        comment = line.lstrip().startswith(mark + " ")
        lines.append((in_backquotes if comment else turned)(line, turn))
    return "\n".join(lines)


def main():
    files = read(".")
    turn = renames({p: t for p, t in files.items() if p.startswith("./crates/")})
    n = 0
    for path, text in files.items():
        new = respell(path, text, turn)
        if new != text:
            n += 1
            with open(path, "w", encoding="utf-8") as f:
                f.write(new)
    print(f"respell: {len(turn)} names, {n} files")


main()
