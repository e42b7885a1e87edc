#!/usr/bin/env python3
"""Brings this repository's own names of definitions, fields and lemmas to snake case.

usage: python3 tools/respell.py [--list]      once, at the top, right after the toolchain's own script for older repositories

A definition or a field with a dash gets an underscore in its place, a type or a fact is joined in camel case. In a lemma's name a dash stays where it joins two names of
definitions or functions, as in 'length-firsts'; where a plain word stands on either side it becomes an underscore. Names that the
prover makes for goals and steps (goal.returns-then-is) are left as they are. Texts between quotes in .rt files are not touched.
--list prints the renaming and the names that would fall together, and writes nothing.
"""
import os
import re
import sys

WORD = r"[A-Za-z][\w']*(?:-[\w'*+]+)+"
DECLARED = re.compile(r"^\s*(?:abbrev\s+|unfoldable\s+)?(?:pub\s+)?(" + WORD + r")\s*:(?!=)")
HEAD = re.compile(r"^\s*(?:pub\s+)?(?:data|record)\s+(" + WORD + r")")
DEFINED = re.compile(r"^\s*(?:abbrev\s+|unfoldable\s+)(?:pub\s+)?([\w'\-]+)")
PLAIN = re.compile(r"^(?:abbrev\s+|unfoldable\s+)?(?:pub\s+)?([\w'\-]+)\s*:(?!=)")
ALIAS = re.compile(r"\bas (" + WORD + r")(?=[,}])")
# what the library's lemmas name: functions and words that a lemma's name may join
LIBRARY = {"length", "take", "drop", "append", "map", "filter", "concat", "All", "Decides", "nil", "cons", "get_or", "set", "zero", "add", "sum", "cond"}


def files(top):
    for folder, dirs, names in os.walk(os.path.join(top, "crates")):
        dirs[:] = sorted(d for d in dirs if d != "out")
        for n in sorted(names):
            if n.endswith((".antt", ".rt", ".edit")):
                yield os.path.join(folder, n)


def names(paths):
    spec, lemma, functions = set(), set(), set()
    for p in paths:
        if p.endswith(".edit"):
            continue
        if p.endswith(".rt"):
            spec.update(ALIAS.findall(open(p, encoding="utf-8").read()))
            continue
        in_specs = "/specs/" in p
        for line in open(p, encoding="utf-8"):
            if "goal." in line:
                continue
            m = DECLARED.match(line) or HEAD.match(line)
            if m:
                kind = in_specs or line.lstrip().startswith(("abbrev", "unfoldable"))
                (spec if kind else lemma).add(m[1])
            for a in ALIAS.findall(line):
                spec.add(a)
            m = PLAIN.match(line) if in_specs else DEFINED.match(line)
            if m:
                functions.add(m[1])
    return spec, lemma - spec, functions


def camel(name):
    return "".join(w[:1].upper() + w[1:] for w in name.split("-"))


def renaming(paths):
    spec, lemma, functions = names(paths)
    to = {n: camel(n) if n[0].isupper() else n.replace("-", "_") for n in spec}
    # names whose dash joins two names, longest name first
    known = sorted({f for f in functions | LIBRARY}, key=len, reverse=True)
    for n in sorted(lemma):
        parts = []
        rest = n
        while rest:
            for k in known:
                if rest == k or rest.startswith(k + "-"):
                    parts.append((k.replace("-", "_"), True))
                    rest = rest[len(k) + 1:]
                    break
            else:
                w, _, rest = rest.partition("-")
                parts.append((w, False))
        out = parts[0][0]
        for (a, is_a), (b, is_b) in zip(parts, parts[1:]):
            out += ("-" if is_a and is_b else "_") + b
        to[n] = out
    return {a: b for a, b in to.items() if a != b}


def tokens(paths):
    found = {}
    for p in paths:
        for t in re.findall(r"[\w'][\w'\-]*", open(p, encoding="utf-8").read()):
            found.setdefault(t, set()).add(p)
    return found


def turn(text, to, is_code):
    rule = re.compile(r"(?<![\w'\-])(" + "|".join(sorted(map(re.escape, to), key=len, reverse=True)) + r")(?![\w'\-])")
    if not is_code:
        return rule.sub(lambda m: to[m[1]], text)
    out = []
    for line in text.split("\n"):
        pieces = re.split(r'("(?:[^"\\]|\\.)*")', line)
        out.append("".join(x if x.startswith('"') else rule.sub(lambda m: to[m[1]], x) for x in pieces))
    return "\n".join(out)


def main():
    top = "."
    paths = list(files(top))
    to = renaming(paths)
    seen = tokens(paths)
    for a, b in sorted(to.items()):
        other = seen.get(b, set())
        if "--list" in sys.argv:
            print(a, "->", b, ("MEETS " + str(sorted(other)[:3])) if other else "")
    if "--list" in sys.argv:
        return
    for p in paths:
        s = open(p, encoding="utf-8").read()
        t = turn(s, to, not p.endswith(".antt"))
        if t != s:
            open(p, "w", encoding="utf-8").write(t)
    print(len(to), "names")


main()
