#!/usr/bin/env python3
"""Brings the names of definitions and lemmas to today's spelling: words in snake case (types, facts and modules keep theirs).

usage: tools/spelling.py [--list]        at the top of the repository, once, after port.py

A name in camel case, or with dashes between its words, that a file of specs/ or proofs/ defines is respelled wherever it stands as a
name in .antt files and in the clauses of .rt files. Names that Rattle generates, names of the library and names of Rust code keep
theirs. Where two names of one file would fall together, the one with dashes keeps them. --list prints the names and writes nothing.
"""

import collections
import os
import re
import sys

KIT = "/opt/rattle"
NAME = re.compile(r"[^\s(){}\[\];:,.λ◌→]+")
DEFINED = re.compile(r"^(\s*)((?:unfoldable |abbrev |pub |record |data |ruleset )*)([^\s:(){}=.,;]+(?: [^\s:(){}=.,;]+)*)\s*(?:[({].*)?:(?!=)")
RULESET = re.compile(r"^(?:pub )?ruleset (?:pub )?([^\s=:]+)")
GIVEN = {"camel": re.compile(r"^[a-z][^-]*[A-Z]"), "dashed": re.compile(r"^[a-z][\w']*(-[\w']+)+$")}
PATH = re.compile(r"\buse [\w+.'-]+")


def snake(name):
    name = re.sub(r"(?<=[a-z0-9'])([A-Z])", lambda m: "_" + m.group(1).lower(), name)
    return name.replace("-", "_")


def files(root):
    for folder, dirs, names in os.walk(root):
        dirs[:] = sorted(d for d in dirs if d not in ("out", ".git"))
        for n in sorted(names):
            if n.endswith((".antt", ".rt")):
                yield os.path.join(folder, n)


def generated(path):
    """Files in a function's folder: their own names are Rattle's goals."""
    folder, name = os.path.split(path)
    return name in ("Proof.antt", "Answers.antt", "Invariants.antt") and os.path.basename(folder) not in ("specs", "proofs")


def clauses(text):
    """The spans of a .rt file that are clauses, ghost fields or ghost imports."""
    spans, pos = [], 0
    for m in re.finditer(r"(?m)^ *ghost use [^;]*;|\b(?:requires|ensures)\*?(?: \w+)? \{|\bghost(?: invariant)?(?: \w+)?:? \{", text):
        if m.start() < pos:
            continue
        if text[m.start() : m.end()].rstrip().endswith(";"):
            pos = m.end()
            spans.append((m.start(), pos))
            continue
        depth, i = 1, m.end()
        while depth and i < len(text):
            depth += {"{": 1, "}": -1}.get(text[i], 0)
            i += 1
        pos = i
        spans.append((m.end(), i - 1))
    return spans


def names_of(path, text):
    """A file's text without Rust code and without the paths of imports, whose names are those of functions and modules."""
    if path.endswith(".rt"):
        text = " ".join(text[a:b] for a, b in clauses(text))
    return PATH.sub(" ", text)


def main(argv):
    texts = {p: open(p, encoding="utf-8").read() for p in files("crates")}
    defined = collections.defaultdict(set)
    for p, t in texts.items():
        if p.endswith(".rt") or generated(p):
            continue
        for line in t.split("\n"):
            m = DEFINED.match(line) or RULESET.match(line)
            for n in (m.group(m.lastindex).split() if m else ()):
                defined[n].add(p)
    library = set()
    for top in ("rattle", "logic_built"):
        for folder, _, names in os.walk(os.path.join(KIT, top)):
            for n in names:
                if n.endswith(".antt"):
                    library.update(NAME.findall(open(os.path.join(folder, n), encoding="utf-8", errors="replace").read()))
    tokens = {p: set(NAME.findall(names_of(p, t))) for p, t in texts.items()}
    where = collections.defaultdict(set)
    for p, ts in tokens.items():
        for t in ts:
            where[t].add(p)
    new = {}
    kept = []
    for kind in ("camel", "dashed"):
        for n in sorted(defined):
            if not GIVEN[kind].match(n) or (kind == "dashed" and n in library):
                continue
            to = snake(n)
            taken = set()
            for p in where[n]:
                for t in tokens[p]:
                    if t != n and new.get(t, t) == to:
                        taken.add((t, p))
            if taken:
                kept.append((kind, n, sorted(taken)[:2]))
                if kind == "dashed":
                    continue
                # a lemma or a name of a proof, which port.py had turned
                new[to] = to.replace("_", "-")
            new[n] = to
    if argv == ["--list"]:
        for kind, n, t in kept:
            print(kind, n, t)
        print(len(new), "names;", sum(k == "dashed" for k, _, _ in kept), "keep their dashes;", sum(k == "camel" for k, _, _ in kept), "in camel case meet another")
        return 0

    def turned(text, but=()):
        out, at = [], 0
        for m in [*PATH.finditer(text), None]:
            end = m.start() if m else len(text)
            out.append(NAME.sub(lambda k: k.group(0) if k.group(0) in but else new.get(k.group(0), k.group(0)), text[at:end]))
            if m:
                out.append(m.group(0))
                at = m.end()
        return "".join(out)

    changed = 0
    for p, t in texts.items():
        if p.endswith(".rt"):
            out, at = [], 0
            for a, b in clauses(t):
                out += [t[at:a], turned(t[a:b])]
                at = b
            done = "".join(out) + t[at:]
        elif generated(p):
            own = set(re.findall(r"(?m)^(?:pub |abbrev )*([^\s:(){}=.,;]+)\s*:(?!=)", t))
            done = turned(t, own)
            for n in own:
                if n.endswith("-spec"):
                    done = re.sub(r"(?<![\w'-])" + re.escape(n) + r"(?![\w'-])", snake(n), done)
        else:
            done = "\n".join(l if l.lstrip().startswith("--") else turned(l) for l in t.split("\n"))
            done = re.sub(r"(?m)^(\s*--.*)$", lambda m: NAME.sub(lambda k: new[k.group(0)] if k.group(0) in new and GIVEN["camel"].match(k.group(0)) else k.group(0), m.group(0)), done)
        if done != t:
            changed += 1
            with open(p, "w", encoding="utf-8") as f:
                f.write(done)
    print(f"{len(new)} names, {changed} files")
    return 0


if __name__ == "__main__":
    raise SystemExit(main(sys.argv[1:]))
