#!/usr/bin/env python3
"""Brings the names of this repository's own definitions and lemmas to today's spelling: words in snake case, types in camel case.

Run once, at the top, right after port.py. It goes by text. Names that proof files give to goals are left alone (the check names
goals), and so are names of the library. `--list` prints what it would do.
"""
import os
import re
import sys

TOKEN = re.compile(r"[A-Za-z_][A-Za-z0-9_'₀-₉]*(?:-[A-Za-z0-9_'₀-₉*]+)*")
DEFINED = re.compile(r"^\s*((?:(?:abbrev|unfoldable|pub|record|data) )*)(" + TOKEN.pattern + r")\s*(?=[:({])")
# port.py gave these lemmas the name that a definition of their file gets here
FELL_TOGETHER = {"crates/ledger/proofs/OldTouches.antt": ("plain_step", "plain_step_lem")}


def files(ending, top="crates"):
    for d, ds, fs in os.walk(top):
        ds[:] = sorted(x for x in ds if x != "out")
        for f in sorted(fs):
            if f.endswith(ending):
                yield os.path.join(d, f)


def is_goal_file(path):
    return path.endswith("/Proof.antt")


def snake(name):
    if name[0].isupper():
        if name.isupper() or "-" not in name:
            return name.replace("-", "_")
        head, *rest = name.split("-")
        return head + "".join(w.capitalize() for w in rest)
    name = re.sub(r"(?<=[a-z0-9])([A-Z])", lambda m: "_" + m.group(1).lower(), name)
    return name.replace("-", "_")


def defined():
    goals, own = set(), set()
    for path in files(".antt"):
        for line in open(path):
            if line.lstrip().startswith(("--", "use ", "module ", "open ")):
                continue
            m = DEFINED.match(line)
            if m:
                (goals if is_goal_file(path) else own).add(m.group(2))
    return own, goals


def library_names():
    names = set()
    for path in list(files(".antt")) + list(files(".rt")):
        for m in re.finditer(r"use ((?:Rattle\.std|mathlib|Prim|lib|native|borrow|denote|core|walk|logic)[\w.]*)\.\{([^}]*)\}", open(path).read()):
            names |= {n.strip() for n in m.group(2).split(",")}
    return names


def table():
    own, goals = defined()
    std = library_names()
    names = {n: snake(n) for n in own if snake(n) != n and n not in std}
    by_new = {}
    for old, new in sorted(names.items()):
        by_new.setdefault(new, []).append(old)
    for new, olds in by_new.items():
        taken = new in own or new in std
        for old in olds:
            if (len(olds) > 1 or taken) and "-" in old:
                names[old] = new + "_lem"
    return names


def turned(text, names):
    return TOKEN.sub(lambda m: names.get(m.group(0), m.group(0)), text)


def turn_antt(text, names):
    out = []
    for line in text.split("\n"):
        code, dash, comment = line.partition("--")
        camel = {o: n for o, n in names.items() if "-" not in o}
        out.append(turned(code, names) + dash + turned(comment, camel))
    return "\n".join(out)


def turn_rt(text, names):
    """Only ghost text: imports, clauses and ghost items."""
    out, depth, ghost = [], 0, False
    for line in text.split("\n"):
        code, slashes, comment = line.partition("//")
        if not ghost and re.match(r"\s*(ghost |requires|ensures|also_)", code):
            ghost, depth = True, 0
        if ghost:
            code = turned(code, names)
            depth += code.count("{") - code.count("}")
            if depth <= 0:
                ghost = False
        camel = {o: n for o, n in names.items() if "-" not in o}
        out.append(code + slashes + turned(comment, camel))
    return "\n".join(out)


def turn_page(text, names):
    return re.sub(r"`[^`\n]+`", lambda m: turned(m.group(0), names), text)


def main():
    for path, (old, new) in FELL_TOGETHER.items():
        text = open(path).read()
        if "--list" not in sys.argv and "plainStep" in text:
            open(path, "w").write(re.sub(r"\b%s\b" % old, new, text))
    names = table()
    if "--list" in sys.argv:
        for old, new in sorted(names.items()):
            print(old, new)
        return
    for path in list(files(".antt")) + list(files(".rt")) + list(files(".edit")):
        text = open(path).read()
        how = turn_rt if path.endswith(".rt") else turn_antt
        new = how(text, names)
        if new != text:
            open(path, "w").write(new)
    pages = [p for p in files(".md", ".") if "/out/" not in p] + list(files(".txt", "drafts"))
    for path in pages:
        if path.startswith("drafts"):
            continue
        text = open(path).read()
        new = turn_page(text, names)
        if new != text:
            open(path, "w").write(new)


main()
