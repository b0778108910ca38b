#!/usr/bin/env python3
"""Brings goals and steps that proof files cite to today's names: a name of the source keeps its spelling in them.

usage: tools/respell_goals.py CRATE..      at the top of the repository
"""
import os
import re
import sys

OWN = "in-ok in-err in-default from-residual overflow-add overflow-sub overflow-mul overflow-cast slice-bounds index-mut well-formed type-inv invariant-of yielded-by with-capacity".split()
TOKEN = re.compile(r"(?<![\w'-])[a-z][\w']*(?:-[\w']+)+")


def walk(top, end):
    for folder, dirs, names in os.walk(top):
        dirs[:] = sorted(d for d in dirs if d not in ("out", "target"))
        for f in sorted(names):
            if f.endswith(end):
                yield os.path.join(folder, f)


def text(path):
    with open(path, encoding="utf-8") as f:
        return f.read()


def main(argv):
    words = set()
    for path in walk("crates", ".rt"):
        words |= set(re.findall(r"\b[a-z]\w*_\w+\b", text(path)))
    table = {w.replace("_", "-"): w for w in words if "-" in w.replace("_", "-").strip("-")}
    table.update({w: w.replace("-", "_") for w in OWN})
    some = re.compile("(?<![a-z0-9_'])(" + "|".join(sorted(map(re.escape, table), key=len, reverse=True)) + ")(?![a-z0-9_'])")
    for crate in argv:
        for path in walk(os.path.join("crates", crate, "proofs"), ".antt"):
            if os.path.basename(path) not in ("Answers.antt", "Invariants.antt", "Proof.antt"):
                continue
            t = text(path)
            u = "\n".join(l if re.match(r"use (?!.*\.proofs\.[\w.+]*\.?(Goals|Given))", l) else TOKEN.sub(lambda m: some.sub(lambda k: table[k[1]], m[0]), l) for l in t.split("\n"))
            if u != t:
                with open(path, "w", encoding="utf-8") as f:
                    f.write(u)
    return 0


if __name__ == "__main__":
    raise SystemExit(main(sys.argv[1:]))
