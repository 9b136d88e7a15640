#!/usr/bin/env python3
"""Brings the repository's own definitions and lemmas to snake case, once, after the spelling of the language was brought over.

usage: python3 tools/snake_names.py            in the repository's root: rewrites the .rt and .antt files of crates/

Words are in snake case, types and modules in camel case: `firstMet` becomes `first_met`, `known-tag` becomes `known_tag`. Names of the
library keep their spelling, and so do functions of src/ and the names of goals. What falls together is refused, and nothing is written.
"""
import collections
import os
import re
import sys

WORD = re.compile(r"[\w'-]+")
CAMEL = re.compile(r"^[a-z][a-z0-9]*(?:[A-Z]\w*)+$")
DEFINED = re.compile(r"^\s*(?:(?:abbrev|unfoldable|pub|data|record)\s+)*([^\s:(){};,.]+)(?:\s+[^\s:(){};,.=]+)*\s+:(?:\s|$)")
IMPORT = re.compile(r"^(?:pub )?use (Rattle\.\w+)\.[\w.'+-]*\.\{([^}]*)\}")
# a module of ours that is brought in, under its name or another
ALIAS = re.compile(r"^(?:pub )?use Rattle\.(?:%s)\.(?:specs|proofs)(?:\.\w+)*\.([A-Z]\w*)(?: as ([\w']+))?$" % "|".join(sorted(os.listdir("crates"))), re.M)
OF = re.compile(r"([\w']+)\.$")
# names of the library that stand in the files and are spelled as ours were
LIBRARY = {"getD"}
# names of functions, that a lemma shall not have as well: it gets `_lem`
FUNCTIONS = {"bit_or"}
# a proof of one function: what it defines is named after goals, and is brought over with the goals' names
WALK = re.compile(r"/proofs/(?:.*/)?\w+/Proof\.antt$")


def snake(name):
    parts = [re.sub(r"([a-z0-9])([A-Z])", r"\1_\2", part).lower() if CAMEL.match(part) and part not in LIBRARY else part for part in name.split("-")]
    whole, name = name, "-".join(parts)
    turned = re.sub(r"(?<=\w)-(?=\w)", "_", name)
    return turned + "_lem" if "-" in whole and turned in FUNCTIONS else turned


def sources():
    for folder, dirs, files in os.walk("crates"):
        dirs[:] = sorted(d for d in dirs if d not in ("out", "must-fail"))
        for f in sorted(files):
            if f.endswith((".rt", ".antt")):
                yield os.path.join(folder, f)


def fields(text):
    """The dashed names of the fields of a file's records."""
    found, inside = set(), None
    for line in text.splitlines():
        indent = len(line) - len(line.lstrip())
        if re.match(r"^\s*(?:pub )?record \S", line):
            inside = indent
        elif line.strip() and inside is not None and indent <= inside:
            inside = None
        m = DEFINED.match(line)
        if m and inside is not None and indent > inside:
            found |= {w for w in WORD.findall(line.split(" : ")[0]) if "-" in w.strip("-")}
    return found


def own_crates():
    return {"Rattle." + c for c in os.listdir("crates") if os.path.isdir(os.path.join("crates", c))}


def defined(text):
    """The dashed names that a file defines."""
    found = set()
    for line in text.splitlines():
        m = DEFINED.match(line)
        if m and not line.lstrip().startswith("--"):
            for name in WORD.findall(line.split(" : ")[0]):
                if "-" in name.strip("-") and name[0].islower():
                    found.add(name)
    return found


def main():
    texts = {p: open(p, encoding="utf-8").read() for p in sources()}
    crates = own_crates()
    dashed = {p: defined(t) for p, t in texts.items() if p.endswith(".antt") and not WALK.search(p)}
    everywhere = set().union(*dashed.values())
    members = set().union(*(fields(t) for p, t in texts.items() if p.endswith(".antt") and not WALK.search(p)))
    print("fields:", ", ".join(sorted(members)))
    for p, t in texts.items():
        FUNCTIONS.update(snake(w) for w in WORD.findall(t) if CAMEL.match(w) and w not in LIBRARY)
        if "/specs/" in p:
            FUNCTIONS.update(m.group(1) for m in map(DEFINED.match, t.splitlines()) if m and m.group(1).islower())
    out, fell = {}, collections.defaultdict(set)
    for p, t in texts.items():
        here = set()
        if p.endswith(".antt"):
            for line in t.splitlines():
                m = IMPORT.match(line)
                if m and m.group(1) in crates:
                    here |= {w for w in WORD.findall(m.group(2)) if w in everywhere}
                elif m is None and line.startswith("use ") and "{" in line:
                    # what the library gives under one of our names stays
                    here -= set(WORD.findall(line[line.index("{"):]))
            here |= dashed.get(p, set())
        if WALK.search(p):
            here -= defined(t)

        modules = {m.group(2) or m.group(1) for m in ALIAS.finditer(t)} if p.endswith(".antt") else set()
        words = set(WORD.findall(t))
        named = {m.group(1) for m in map(DEFINED.match, t.splitlines()) if m} if p.endswith(".antt") and not WALK.search(p) else set()
        lemmas = {snake(w) for w in words if CAMEL.match(w) and w not in LIBRARY} & named

        locals_here = set()
        if p.endswith(".antt") and not WALK.search(p):
            code = re.sub(r"(?m)--.*$", "", t)
            brought = set(WORD.findall(" ".join(re.findall(r"(?m)^(?:pub )?use .*$", code))))
            locals_here = {w for w in WORD.findall(code) if "-" in w.strip("-") and w[0].islower() and w not in brought}

        def turn(m):
            w = m.group(0)
            if w in LIBRARY:
                return w
            if w in lemmas:
                return w + "_lem"
            if CAMEL.match(w):
                return snake(w)
            if w in members and p.endswith(".antt"):
                return snake(w)
            if w in here and t[m.start() - 1 : m.start()] != ".":
                return snake(w)
            if w in locals_here and t[m.start() - 1 : m.start()] != "." and "--" not in t[t.rfind("\n", 0, m.start()) + 1 : m.start()]:
                return snake(w)
            of = OF.search(t, max(0, m.start() - 80), m.start())
            if w in everywhere and of and of.group(1) in modules:
                return snake(w)
            return w

        out[p] = WORD.sub(turn, t)
        for w in words:
            s = snake(w) if (CAMEL.match(w) and w not in LIBRARY) or w in here or w in locals_here else None
            if s and s != w and s in words and s not in lemmas and p.endswith(".antt") and not WALK.search(p):
                fell[p].add(f"{w} and {s}")
    for p in sorted(fell):
        print("together:", p, ", ".join(sorted(fell[p])))
    n = 0
    for p, t in out.items():
        if t != texts[p]:
            n += 1
            with open(p, "w", encoding="utf-8") as f:
                f.write(t)
    print(f"turned: {n} files")
    return 0


if __name__ == "__main__":
    sys.exit(main())
