#!/usr/bin/env python3
"""Respells this repository's own definitions and lemmas after the kit's port.py: words in snake case, types in camel case.

usage: python3 tools/respell.py [--dry]     at the top of the repository, once, right after /opt/rattle/port/port.py

It reads which names the repository's own specs/ and proofs/ declare or bind, and respells those wherever they stand as whole
words in .antt files and in the ghost text of .rt files. Names that a file imports from a library keep their spelling, and so
do names that Rattle makes (goals, steps, branches), strings, and everything outside of ghost text in src/.
It prints the names that fall together with another name of the same file.
"""

import os
import re
import sys

WORD = re.compile(r"[A-Za-z_ℕ≤][A-Za-z0-9_'$ℕ≤-]*")
OWN = re.compile(r"^Rattle\.(\w+)\.(specs|proofs)\.")
USE = re.compile(r"(?:ghost )?use ([^\s{;]+?)\.\{([^}]*)\}|(?:ghost )?use ([^\s{;]+?)(?: as (\S+?))?;?$", re.M)


def crates():
    return sorted(d for d in os.listdir("crates") if os.path.isdir(os.path.join("crates", d)))


def files(ending):
    for folder, dirs, names in os.walk("crates"):
        dirs[:] = sorted(d for d in dirs if d != "out")
        for name in sorted(names):
            if name.endswith(ending):
                yield os.path.join(folder, name)


def read(path):
    with open(path, encoding="utf-8") as f:
        return f.read()


def split(text, rust):
    """The text as pieces (kind, text): 'code', 'comment' or 'string'."""
    mark = "//" if rust else "--"
    at, start, pieces = 0, 0, []
    while at < len(text):
        if text.startswith(mark, at) and (rust or at == 0 or text[at - 1] in " \t\n"):
            end = text.find("\n", at)
            end = len(text) if end < 0 else end
            kind = "comment"
        elif text[at] == '"':
            end = at + 1
            while text[end] != '"':
                end += 2 if text[end] == "\\" else 1
            end, kind = end + 1, "string"
        else:
            at += 1
            continue
        pieces.append(("code", text[start:at]))
        pieces.append((kind, text[at:end]))
        at = start = end
    pieces.append(("code", text[start:]))
    return pieces


def imported(text, rust):
    """The names that a file imports from elsewhere than the repository's own definitions and lemmas."""
    found = set()
    for m in USE.finditer(text):
        path, names = m.group(1), m.group(2)
        if path is None:
            continue
        own = OWN.match(path)
        made = re.search(r"\.(Goals|Given|Tie|Steps)$|\.specs\.(declared|contracts)\.", path)
        if own and own.group(1) in OURS and not made:
            continue
        for name in names.split(","):
            found.update(w for w in WORD.findall(name))
    return found


def goal_names(text):
    return set(re.findall(r"(?:goal|given)\.([\w'$+-]+)", text)) | set(re.findall(r"^(?:abbrev )?pub ([\w'$+-]+) :.*\b(?:goal|given)\.", text, re.M))


def bound(text):
    """The hyphenated words of an .antt file that are no field of something and no name of a library or of Rattle's."""
    away = imported(text, False) | goal_names(text)
    found = set()
    for kind, piece in split(text, False):
        if kind == "code":
            for m in WORD.finditer(piece):
                word = m.group(0)
                if "-" in word.strip("-") and word not in away and (m.start() == 0 or piece[m.start() - 1] != "."):
                    found.add(word)
    return found


def respelled(word):
    word = word.replace("getD", "get_or")
    parts = [p for p in word.split("-")]
    if parts[0][:1].isupper():
        return "".join(p[:1].upper() + p[1:] for p in parts)
    return "_".join(parts)


def turned(text, rust, names):
    away = imported(text, rust) | (goal_names(text) if not rust else set())
    out = []
    for kind, piece in split(text, rust):
        if kind == "string":
            out.append(piece)
            continue

        def one(m):
            word = m.group(0)
            if word not in names or word in away:
                return word
            if kind == "comment" and not re.search(r"[-]", word):
                return word
            return names[word]

        out.append(WORD.sub(one, piece))
    return "".join(out)


def main():
    names = {}
    for path in files(".antt"):
        for word in bound(read(path)):
            names[word] = respelled(word)
    for word in ("getD'", "cut_Cells"):
        names[word] = {"getD'": "get_or'", "cut_Cells": "cut_cells"}[word]
    used = {}
    for path in list(files(".antt")) + list(files(".rt")):
        rust = path.endswith(".rt")
        text = read(path)
        new = turned(text, rust, names)
        before = {w for k, p in split(text, rust) if k == "code" for w in WORD.findall(p)}
        made = {}
        for w in before:
            if w in names and w not in imported(text, rust):
                made.setdefault(names[w], set()).add(w)
        for to, froms in made.items():
            if to in before:
                froms = froms | {to}
            if len(froms) > 1:
                print("together: %s: %s" % (path, ", ".join(sorted(froms))))
        if new != text and "--dry" not in sys.argv:
            with open(path, "w", encoding="utf-8") as f:
                f.write(new)
    if "--dry" in sys.argv:
        for word in sorted(names):
            print(word, names[word])


OURS = set(crates())
main()
