#!/usr/bin/env python3
"""Brings the repository's own definitions and lemmas to today's spelling of names. It runs after the kit's own scripts, and a second time changes nothing.

A definition, a constructor, a field or a lemma is in snake case; a dash stays where it joins the names of two functions, as in `length-rows`.
Types, facts and modules keep their upper camel case, and whatever Rattle or the source names keeps its spelling.

usage: tools/respell_names.py [--list]      at the top of the repository; --list prints the renamings and writes nothing
"""
import os
import re
import sys

DEFINED = re.compile(
    r"^ *(?:(?:abbrev|opaque|unfoldable|pub|instance)\s+)*([^\s:(){},.=|\[\]]+(?:\s+[^\s:(){},.=|\[\]]+)*?)\s*:\s+(\S.*)$"
)
NAME = re.compile(r"[a-z][A-Za-z0-9_'-]*$")
WORDS = re.compile(r"(?<![\w'-])([a-z][A-Za-z0-9_'-]*)(?![\w'])")
# The functions whose names a dash joins; beside any other word it becomes an underscore.
JOINED = "length append take drop map cut put rows le le_all twos pack bit bits bytes nodes offsets offset_bytes total unle zeros number natural".split()
# Names that would say the same as another one, and what stands for them.
# A lemma that would have its function's name ends in `_lem`.
BY_HAND = {
    "bitmap-lies": "bitmap_lies_lem",
    "bits-at": "bits_at_lem",
    "data-lies": "data_lies_lem",
    "kind-of": "kind_of_lem",
    "mark-in": "mark_in_lem",
    "shapes-side": "shapes_side_lem",
    "stringBytes": "bytes_of_strings",
    "tabled-by": "tabled_by_lem",
    "tree-as": "tree_as_lem",
    "tree-size": "tree_size_lem",
    "width-of": "width_of_lem",
    "zeros-in": "zeros_in_lem",
}

# The same, where the function's name comes to be that of the lemma.
GIVES_WAY = {"end_to_end": "endToEnd", "offset_at": "offsetAt"}


def files():
    for folder, dirs, names in os.walk("crates"):
        dirs[:] = sorted(d for d in dirs if d not in ("out", "target"))
        for f in sorted(names):
            if f.endswith((".rt", ".antt")):
                yield os.path.join(folder, f)


def text(path):
    with open(path, encoding="utf-8") as f:
        return f.read()


def defined(path, t):
    """The names that a file of specs/ or proofs/ defines, each with whether a goal of Rattle's has it."""
    for line in t.split("\n"):
        line = re.sub(r"\s*--.*", "", line)
        if re.match(r"\s*(use|mod|pub mod|let|in)\b", line):
            continue
        line = re.sub(r"^( *)(pub )?mutual$", "", line)
        m = DEFINED.match(line)
        if not m:
            continue
        for name in m[1].split():
            if NAME.match(name) and name not in ("pub", "data", "record"):
                yield name, bool(re.match(r"(goal|given|need)\.", m[2]))


def snake(name):
    name = name.replace("getD", "get_or").replace("get_d", "get_or")
    return re.sub(r"(?<=[a-z0-9])([A-Z])", lambda m: "_" + m[1].lower(), name)


def plan():
    own, goals = {}, set()
    for path in files():
        if path.endswith(".antt"):
            for name, goal in defined(path, text(path)):
                if goal:
                    goals.add(name)
                else:
                    own.setdefault(name, set()).add(path)
    new = {}
    for name in sorted(own):
        if name in goals:
            continue
        if name in BY_HAND:
            new[name] = BY_HAND[name]
            continue
        if GIVES_WAY.get(name) in own:
            new[name] = name + "_lem"
            continue
        parts = [snake(p) for p in name.split("-")]
        joined = "-" if len(parts) == 2 and all(p in JOINED for p in parts) else "_"
        to = joined.join(parts)
        if to != name:
            new[name] = to
    return own, goals, new


def clash(own, new):
    """Where two names fall together: two of the old, or a new one beside one that stays."""
    seen = {}
    for name in own:
        seen.setdefault(new.get(name, name), set()).add(name)
    return {to: names for to, names in seen.items() if len(names) > 1}


def imported():
    """Each own name that some file imports from outside the repository."""
    crates = set(os.listdir("crates"))
    out = {}
    for path in files():
        for m in re.finditer(r"use ([\w.'·]+)\.\{([^}]*)\}", text(path)):
            where = m[1].split(".")
            if where[0] == "Rattle" and len(where) > 1 and where[1] in crates:
                continue
            for name in m[2].split(","):
                out.setdefault(name.strip().split(" as ")[0], set()).add(path)
    return out


def clauses(t):
    """The parts of a .rt file that are antt: ghost imports, ghost items and clauses."""
    for m in re.finditer(r"ghost use [^;]*;", t):
        yield m.start(), m.end()
    for m in re.finditer(r"(?:\b(?:requires|ensures)\*?(?: \w+)? |\bghost \w+ ?[:=]? ?)\{", t):
        depth, k = 0, m.end() - 1
        while True:
            depth += (t[k] == "{") - (t[k] == "}")
            k += 1
            if not depth:
                break
        yield m.end() - 1, k


def renamed(t, new):
    return WORDS.sub(lambda m: new.get(m[1], m[1]), t)


def turn(path, t, new):
    if path.endswith(".antt"):
        return "\n".join(renamed(line, new) if "--" not in line else renamed_beside(line, new) for line in t.split("\n"))
    out, at = [], 0
    for a, b in sorted(clauses(t)):
        out += [t[at:a], renamed(t[a:b], new)]
        at = b
    return "".join(out) + t[at:]


def renamed_beside(line, new):
    code, dashes, rest = line.partition("--")
    if code and not code[-1].isspace():
        return renamed(line, new)
    camel = {k: v for k, v in new.items() if re.search("[a-z][A-Z]", k)}
    return renamed(code, new) + dashes + renamed(rest, camel)


def main(argv):
    own, goals, new = plan()
    together = clash(own, new)
    for to, names in sorted(together.items()):
        print("fall together:", to, sorted(names), {n: sorted(own[n]) for n in names})
    outside = imported()
    for name, to in sorted(new.items()):
        if name in outside:
            print("also imported from outside:", name, sorted(outside[name])[:3])
        if to in outside:
            print("new name is imported from outside:", name, to, sorted(outside[to])[:3])
    if "--list" in argv:
        for name, to in sorted(new.items()):
            print(name, "->", to)
        return 0
    for path in files():
        t = text(path)
        u = turn(path, t, new)
        if u != t:
            with open(path, "w", encoding="utf-8") as f:
                f.write(u)
    return 0


if __name__ == "__main__":
    raise SystemExit(main(sys.argv[1:]))
