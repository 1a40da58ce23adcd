#!/usr/bin/env python3
"""Brings this repository's own names of definitions, fields and lemmas to snake case, once, after the toolchain's port.py.

usage: python3 tools/respell.py        at the top of the repository

A name is the repository's own where a file of specs/, or a file of proofs/ that is no function's proof, declares it.
faultOf becomes fault_of. A dash stays between two names of functions, as in length-tab; a plain word is joined by an
underscore, as in band_again. Types, modules and functions of src/ keep their names. A lemma whose new name another
definition has gets _lem at its end, and a field _fact. Where two names would still fall together the script stops and writes nothing.
"""
import collections
import glob
import re
import sys

TOKEN = re.compile(r"--[^\n]*|\"(?:[^\"\\]|\\.)*\"|[^\s(){}.;,@\"«»\[\]\\]+")
MARKS = r"(?:(?:abbrev|unfoldable|pub|ruleset)\s+)*"
# names of std that lemmas are about
STD = set("length take drop map append set get get_or replicate reverse add sub mul div neg lt le cond not sum min max".split())


def texts():
    for pattern in ("crates/*/specs/**/*.antt", "crates/*/proofs/**/*.antt"):
        for p in sorted(glob.glob(pattern, recursive=True)):
            if "/out/" not in p:
                yield p


def declared():
    """Each own name with what declares it: spec, lemma or field."""
    found = collections.defaultdict(set)
    for p in texts():
        if p.endswith("/Proof.antt"):
            continue
        for line in open(p, encoding="utf-8"):
            top = re.match(MARKS + r"([^\s:(){}=]+)(?=[\s(:{=])", line)
            if top and not line.startswith((" ", "--", "use ", "infix", "unfolding", "mod ", "pub mod")):
                if re.search(r"(^|\s):(\s|$)", line) or "ruleset" in line[:15]:
                    if top[1] not in ("record", "data"):
                        found[top[1]].add("spec" if "/specs/" in p else "lemma")
            inner = re.match(r"\s+((?:(?:abbrev|unfoldable|pub)\s+)*)([^\s:(){}=λ]+)\s*:\s", line)
            if inner:
                # with a mark that opens a body it is a definition of a module with parameters
                marked = "abbrev" in inner[1] or "unfoldable" in inner[1]
                found[inner[2]].add(("spec" if "/specs/" in p else "lemma") if marked else "field")
    return found


def cited_of_others():
    """The names that some file imports from a library: an own name that is spelled alike stays as it is."""
    own = {c.split("/")[1] for c in glob.glob("crates/*/")}
    found = set()
    for p in texts():
        for m in re.finditer(r"(?m)^use ([^\s{]+)\.\{([^}]*)\}", open(p, encoding="utf-8").read()):
            if not (m[1].startswith("Rattle.") and m[1].split(".")[1] in own):
                found |= {n.strip() for n in m[2].split(",")}
    return found


def snake(name):
    return re.sub(r"(?<=[a-z0-9])([A-Z])", lambda m: "_" + m[1].lower(), name)


def main():
    kinds = declared()
    for n in cited_of_others():
        kinds.pop(n, None)
    specs = {snake(n) for n in kinds if "spec" in kinds[n]} | STD
    table = {}
    for n in kinds:
        if not re.match(r"[a-z]", n):
            continue
        new = "-".join(snake(p) for p in n.split("-"))
        if "-" in new:
            parts = new.split("-")
            joined = parts[0]
            for before, after in zip(parts, parts[1:]):
                stays = kinds[n] == {"lemma"} and before in specs and after in specs
                joined += ("-" if stays else "_") + after
            new = joined
        if new != n:
            table[n] = new
    # a lemma or a field that would have the name of another definition gives way
    by_new = collections.defaultdict(set)
    for n in kinds:
        by_new[table.get(n, n)].add(n)
    for new, ns in sorted(by_new.items()):
        giving = sorted((n for n in ns if "spec" not in kinds[n]), key=lambda n: ("lemma" in kinds[n], n))
        for n in giving[len(ns) == len(giving) :] if len(ns) > 1 else []:
            table[n] = new + ("_lem" if "lemma" in kinds[n] else "_fact")
    by_new = collections.defaultdict(set)
    for n in kinds:
        by_new[table.get(n, n)].add(n)
    clash = {new: ns for new, ns in by_new.items() if len(ns) > 1}
    if clash:
        print("names that fall together:", clash)
        return 1
    changed = 0

    def turn(text, is_function):
        def one(m):
            t = m[0]
            if is_function and text[m.start() - 1 : m.start()] == ".":
                # below a path of c stand the steps of the function's code too, by the names of what it calls
                step = re.match(r"\.(ensures|new|old|result|entry|exit|arg)\b", text[m.end() :])
                return t if step or "field" not in kinds.get(t, ()) else table.get(t, t)
            if t.startswith(("--", '"')):
                # a comment may quote a name
                if t.startswith("--"):
                    return re.sub(r"`([^`]+)`", lambda q: "`" + table.get(q[1], q[1]) + "`", t)
                return t
            return table.get(t, t)

        return TOKEN.sub(one, text)

    for p in texts():
        t = open(p, encoding="utf-8").read()
        n = turn(t, p.endswith("/Proof.antt"))
        if n != t:
            open(p, "w", encoding="utf-8").write(n)
            changed += 1
    for p in sorted(glob.glob("crates/*/src/**/*.rt", recursive=True)):
        t = open(p, encoding="utf-8").read()
        code = {o: n for o, n in table.items() if re.search(r"[a-z0-9][A-Z]", o)}

        def line_of(line):
            if line.lstrip().startswith("//"):
                return re.sub(r"`([^`]+)`", lambda q: "`" + table.get(q[1], q[1]) + "`", line)
            if line.lstrip().startswith("ghost use"):
                return re.sub(r"[^\s(){}.;,]+", lambda m: table.get(m[0], m[0]), line)
            return re.sub(r"\"(?:[^\"\\]|\\.)*\"|(?<![\w'])[a-z]\w*(?:-\w+)*", lambda m: code.get(m[0], table.get(m[0], m[0]) if "-" in m[0] else m[0]), line)

        n = "\n".join(line_of(l) for l in t.split("\n"))
        if n != t:
            open(p, "w", encoding="utf-8").write(n)
            changed += 1
    print(f"{len(table)} names respelled in {changed} files")
    for o, n in sorted(table.items()):
        if n.endswith(("_lem", "_fact")):
            print(f"  {o} is {n}")
    return 0


sys.exit(main())
