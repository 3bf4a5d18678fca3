#!/usr/bin/env python3
"""Brings this repository's own names in specs/ and proofs/ to the spelling of today's Rattle: words in snake case, types in camel case.

usage: python3 tools/respell.py [--list]      at the top of the repository; --list prints the names and changes nothing

A name is this repository's own where a file of specs/ or proofs/ declares it: a definition, a lemma, a record, a field, a variable of a
signature. What Rattle makes (goals, steps, names below `c.`) and what its library has keeps its name. In a .rt file only contracts,
ghost items and ghost imports can hold such a name, since code has spaces round its minus; strings and comments stay.
"""
import collections
import os
import re
import sys

WORD = r"[A-Za-z][\w'\u2032]*(?:-[\w'\u2032]+)+"
TOKEN = re.compile(r"(?<![\w'.\-\u25cc\u00ab])" + WORD + r"(?![\w'\-\u25cc])")
FIELD = re.compile(r"(?<=\.)" + WORD + r"(?![\w'\-\u25cc])")
GOAL = re.compile(r"^(?:abbrev )?pub (" + WORD + r") : (?:goal|need|given)\b")
TOP = re.compile(r"^\s*((?:(?:abbrev|pub|unfoldable|record|data)\s+)*)(" + WORD + r")((?:\s+[({][^=]*)?)\s*:(?:\s|$)")


def files(root):
    for folder, dirs, names in os.walk(os.path.join(root, "crates")):
        dirs[:] = sorted(d for d in dirs if d != "out")
        for n in sorted(names):
            if n.endswith((".antt", ".rt")):
                yield os.path.join(folder, n)


def bare(line, rt):
    """The line without its comment and its strings."""
    line = re.sub(r"//.*$" if rt else r"(?:^|(?<=\s))--(?:\s.*)?$", "", line)
    return re.sub(r'"(?:\\.|[^"\\])*"', '""', line)


def declared(texts):
    own, types, goals = set(), set(), set()
    for p, t in texts.items():
        if p.endswith(".rt"):
            continue
        for l in t.split("\n"):
            m = GOAL.match(l)
            if m:
                goals.add(m.group(1))
                continue
            m = TOP.match(bare(l, False))
            if not m:
                continue
            own.add(m.group(2))
            if "record" in m.group(1) or "data" in m.group(1) or re.search(r"(?:^|→|:)\s*Type 0(?:\s+where)?\s*$", l):
                types.add(m.group(2))
            # the variables that it binds
            own.update(re.findall(r"[({](" + WORD + r") (?:[\w'-]+ )*:", l))
        own.update(re.findall(r"(?:\blet |λ )(" + WORD + r")(?= :| =|\.)", t))
    return own - goals, types - goals, goals


def spelled(name, types):
    parts = name.replace("\u2032", "'").split("-")
    if name in types:
        return "".join(p[:1].upper() + p[1:] for p in parts)
    if name[0].isupper():
        return name
    return "_".join(parts)


def main(argv):
    texts = {}
    for p in files("."):
        with open(p, encoding="utf-8") as f:
            texts[p] = f.read()
    own, types, goals = declared(texts)
    new = {n: spelled(n, types) for n in own if spelled(n, types) != n}
    every = collections.Counter()
    for p, t in texts.items():
        for l in t.split("\n"):
            every.update(re.findall(r"[A-Za-z][\w']*(?:-[\w']+)*", bare(l, p.endswith(".rt"))))
    back = collections.defaultdict(list)
    for n, s in new.items():
        back[s].append(n)
    for s, ns in sorted(back.items()):
        if len(ns) > 1 or s in every:
            print(f"look: {', '.join(ns)} -> {s}" + (f", which stands {every[s]} times already" if s in every else ""))
    if "--list" in argv:
        for n in sorted(new):
            print(n, "->", new[n])
        return 0
    for p, t in texts.items():
        rt = p.endswith(".rt")
        lines = t.split("\n")
        for i, l in enumerate(lines):
            kept = bare(l, rt)
            if not re.search(WORD, kept):
                continue
            def turn(m):
                return new.get(m.group(0), m.group(0))
            body = l
            tail = ""
            c = re.search(r"//.*$" if rt else r"(?:^|(?<=\s))--(?:\s.*)?$", l)
            if c and '"' not in l[: c.start()]:
                body, tail = l[: c.start()], l[c.start():]
            pieces = re.split(r'("(?:\\.|[^"\\])*")', body)
            for k in range(0, len(pieces), 2):
                pieces[k] = FIELD.sub(turn, TOKEN.sub(turn, pieces[k]))
            lines[i] = "".join(pieces) + tail
        out = "\n".join(lines)
        if out != t:
            with open(p, "w", encoding="utf-8") as f:
                f.write(out)
    print(f"{len(new)} names")
    return 0


if __name__ == "__main__":
    raise SystemExit(main(sys.argv[1:]))
