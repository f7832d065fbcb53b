#!/usr/bin/env python3
"""Brings the repository's own definitions, fields and lemmas from camel case to snake case, in crates/ and in the pages.

usage: rename_words.py REPOSITORY [--pages]

A name in a file of specs/ or proofs/ that begins with a small letter and has a capital (no library has such a name, so each is the
repository's own) becomes a name in snake case wherever it stands as a word: in .antt files, in .rt files, in must-fail edits and,
with --pages, in .md files too. It stops where two names would fall
together, and says where the new name stands in the sources already.
"""
import os, re, sys

CAMEL = r"[a-z][a-z0-9]*(?:[A-Z][a-zA-Z0-9]*)+"
WORD = re.compile(r"(?<![A-Za-z0-9_·.])(" + CAMEL + r")(?![A-Za-z0-9_])|(?<=\.)(" + CAMEL + r")(?![A-Za-z0-9_])")

def snake(n):
    n = re.sub(r"([A-Z]+)([A-Z][a-z])", r"\1_\2", n)
    n = re.sub(r"([a-z0-9])([A-Z])", r"\1_\2", n)
    return n.lower()

def files(root, ends):
    for folder, dirs, fs in os.walk(root):
        dirs[:] = [d for d in dirs if d not in ("out", ".git", "target")]
        for f in sorted(fs):
            if f.endswith(ends): yield os.path.join(folder, f)

def main():
    root = sys.argv[1]; pages = "--pages" in sys.argv
    crates = os.path.join(root, "crates")
    names, texts = set(), {}
    for p in files(crates, (".antt", ".rt", ".edit")):
        with open(p) as f: texts[p] = f.read()
        if p.endswith(".antt"):
            t = re.sub(r"--[^\n]*", "", texts[p])
            names |= {a or b for a, b in WORD.findall(t)}
    table = {n: snake(n) for n in sorted(names)}
    back = {}
    bad = 0
    for n, s in table.items():
        if s in back: print(f"fall together: {n} and {back[s]}"); bad = 1
        back[s] = n
    words = set()
    for p, t in texts.items():
        words |= set(re.findall(r"(?<![A-Za-z0-9_])[a-z][a-z0-9]*(?:_[a-z0-9]+)+(?![A-Za-z0-9_])", re.sub(r"--[^\n]*|//[^\n]*", "", t)))
    for n, s in table.items():
        if s in words: print(f"stands already: {s} (for {n})")
    if bad: sys.exit(1)
    if pages:
        for p in files(root, (".md",)):
            with open(p) as f: texts[p] = f.read()
    def one(m):
        w = m.group(1) or m.group(2)
        return table.get(w, w)
    changed = 0
    for p, t in texts.items():
        if p.endswith(".rt"):
            new = "\n".join(WORD.sub(one, l) for l in t.split("\n"))
        else:
            new = WORD.sub(one, t)
        if new != t:
            changed += 1
            with open(p, "w") as f: f.write(new)
    print(f"{len(table)} names, {changed} files")

main()
