#!/usr/bin/env python3
"""Brings the repository's own definitions and lemmas to today's spelling.

usage: python3 tools/spell.py [--dry]     at the top of the repository, once, right behind port.py

A name that is declared in specs/ or proofs/ of some crate and has a dash is respelled: a fact or a
type in camel case (Sound-edge becomes SoundEdge), all else in snake case (edge-shape becomes
edge_shape). Names of goals, which Rattle makes, functions of src/, strings and comments stay.
The documents' names in backquotes go along. It says which names fall together with others.
"""

import os
import re
import sys

DECLARED = re.compile(r"(?m)^[ \t]*(?:\|[ \t]*)?((?:(?:abbrev|unfoldable|pub|data|record|ruleset)[ \t]+)*)([^\s:(){}\[\];,.|=λ]+)((?:[ \t]+[({][^\n]*?[)}])*)[ \t]*:[ \t]+(\S[^\n]*)$")
LET = re.compile(r"\blet[ \t]+([^\s:(){}\[\];,.|=λ]+)[ \t]*[:=]")
EDGE = r"[^\s(){}\[\];,.|=:λ@`\"→×]"
TOKEN = re.compile(r'"(?:[^"\\\n]|\\.)*"|--[^\n]*|//[^\n]*|' + EDGE + "+")


def files(ends):
    for folder, dirs, names in os.walk("crates"):
        dirs[:] = sorted(d for d in dirs if d != "out")
        for n in sorted(names):
            if n.endswith(ends):
                yield os.path.join(folder, n)


def read(path):
    with open(path, encoding="utf-8") as f:
        return f.read()


def spelled(name):
    if name[0].isupper():
        return "".join(w[0].upper() + w[1:] for w in name.split("-"))
    return name.replace("-", "_")


def own_names():
    own, goals, fields = {}, set(), set()
    for path in files(".antt"):
        text = read(path)
        record = False
        for line in text.split("\n"):
            if re.match(r"^\S", line) and not line.startswith("--"):
                record = bool(re.match(r"^(pub )?record\b", line))
            m = DECLARED.match(line)
            if not m or m.group(2).startswith("--"):
                continue
            name, kind = m.group(2), m.group(4)
            if re.match(r"(goal|need|needs|rules|given)\.", kind):
                goals.add(name)
            elif "-" in name:
                own.setdefault(name, []).append(path)
                if record and line[0] in " \t":
                    fields.add(name)
    return {n: spelled(n) for n in own if n not in goals}, fields


def turned(text, names, fields, met):
    def one(m):
        word = m.group(0)
        if word[0] == '"' or word.startswith("--") or word.startswith("//"):
            return word
        if word not in names:
            met.add(word)
            return word
        before = text[: m.start()]
        if before.endswith(".") and word not in fields and not re.search(r"(?:^|[^\w'-])(?:[\w'-]+\.)*[A-Z][\w'-]*\.$", before[-200:]):
            return word
        return names[word]

    return TOKEN.sub(one, text)


def main():
    dry = "--dry" in sys.argv
    names, fields = own_names()
    taken = {}
    for old, new in sorted(names.items()):
        if new in taken:
            print(f"together: {old} and {taken[new]} both become {new}")
        taken[new] = old
    for path in files((".antt", ".rt")):
        text, met = read(path), set()
        out = turned(text, names, fields, met)
        for w in sorted(met & set(taken)):
            if out != text and re.search(r"(?<![\w'-])" + re.escape(taken[w]) + r"(?![\w'-])", text):
                print(f"together: {path}: {taken[w]} becomes {w}, which stands there already")
        if out != text and not dry:
            with open(path, "w", encoding="utf-8") as f:
                f.write(out)
    pages = [os.path.join("docs", n) for n in sorted(os.listdir("docs")) if n.endswith(".md")] + ["README.md"]
    for path in pages:
        text = read(path)
        out = re.sub(r"`[^`\n]*`", lambda m: turned(m.group(0), names, fields, set()), text)
        if out != text and not dry:
            with open(path, "w", encoding="utf-8") as f:
                f.write(out)
    print(f"{len(names)} names respelled")


main()
