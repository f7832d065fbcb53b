#!/usr/bin/env python3
"""Writes a repository with one crate, `all`, that has the libraries of this one as its modules, so that `rt check --generated FOLDER --old-names`
in it tells the old and the new names of every function's goals before any crate is proved.

usage: one_crate.py REPOSITORY FOLDER [CRATE..]      FOLDER is made anew; crates that are named are left out
"""
import os, re, shutil, sys

def main():
    root, to, out = sys.argv[1], sys.argv[2], set(sys.argv[3:])
    src, top = os.path.join(root, "crates"), os.path.join(to, "crates", "all", "src")
    shutil.rmtree(os.path.join(to, "crates"), ignore_errors=True)
    os.makedirs(top)
    crates = [c for c in sorted(os.listdir(src)) if os.path.exists(os.path.join(src, c, "src", "lib.rt")) and c not in out]
    for c in crates:
        inside = os.path.join(src, c, "src")
        for folder, _, files in os.walk(inside):
            rel = os.path.relpath(folder, inside)
            for f in files:
                with open(os.path.join(folder, f)) as it: t = it.read()
                t = re.sub(r"(?<![\w:])crate::", f"crate::{c}::", t)
                t = re.sub(r"(?<![\w:.])(" + "|".join(crates) + r")::", lambda m: f"crate::{m.group(1)}::", t)
                t = t.replace("crate::crate::", "crate::")
                t = re.sub(r"(?m)^#!\[[^\n]*\n", "", t)
                p = os.path.join(top, c + ".rt") if f == "lib.rt" and rel == "." else os.path.normpath(os.path.join(top, c, rel, f))
                os.makedirs(os.path.dirname(p), exist_ok=True)
                with open(p, "w") as it: it.write(t)
    with open(os.path.join(top, "lib.rt"), "w") as it: it.write("#![tactic(auto)]\n" + "".join(f"pub mod {c};\n" for c in crates))
    with open(os.path.join(to, "crates.txt"), "w") as it: it.write("all:\n")

main()
