#!/usr/bin/env python3
"""Brings the repository's own definitions and lemmas to the spelling of PORTING.md, part 3: words in snake case; a dash only between two names.

usage: python3 tools/respell.py [--dry]      at the top of the repository, once, right after port.py

It collects what crates/*/specs and crates/*/proofs declare, works out each name's new spelling, leaves out those that would fall together with
another name, and replaces whole names in .antt files, in the clauses and `ghost use` items of .rt files, in must-fail edits, and, between
backquotes, in comments and in the pages of README and docs/. Functions of src/, exported C names, types, modules and strings keep their names.
"""
import collections
import glob
import os
import re
import sys

DRY = "--dry" in sys.argv
TOKEN = r"[A-Za-z_0-9'\u2080-\u2089\u00b2\u00b3\u211d\u2115\u2124-]"
NAME = re.compile(r"(?<![A-Za-z0-9_'\u2080-\u2089-])([A-Za-z_][A-Za-z0-9_'\u2080-\u2089-]*)")
DECLARED = re.compile(r"^ *(?:(?:abbrev|unfoldable|opaque) +)?(?:pub +)?([a-z][A-Za-z0-9_'\u2080-\u2089-]*) *:(?!=)")
FIELD = re.compile(r"^ +(?:pub +)?([a-z][A-Za-z0-9_'-]*) *:(?!=)")
IMPORT = re.compile(r"^(?:ghost )?use ([\w.\u00b7-]+)\.\{([^}]*)\}", re.M)


def read(path):
    with open(path, encoding="utf-8") as f:
        return f.read()


def antt(kind):
    found = glob.glob(f"crates/*/{kind}/**/*.antt", recursive=True)
    return sorted(p for p in found if "/out/" not in p)


def snake(word):
    word = word.replace("getD", "get_or").replace("get_d_", "get_or-")
    word = re.sub(r"(?<=[a-z0-9])([A-Z])(?=[a-z]|$|-|_|[A-Z0-9])", lambda m: "_" + m.group(1).lower(), word)
    return word


def made(path):
    """Whether a file is a function's proof, whose goals have Rattle's names."""
    return path.endswith(("/Proof.antt", "/Answers.antt", "/Invariants.antt"))


def declared():
    words, lemmas = set(), set()
    for p in antt("specs"):
        for line in read(p).splitlines():
            m = DECLARED.match(line)
            if m:
                words.add(m.group(1))
    for p in antt("proofs"):
        if made(p):
            continue
        for line in read(p).splitlines():
            m = DECLARED.match(line)
            if m:
                lemmas.add(m.group(1))
    return words, lemmas


def imported():
    """Names that come from the kit."""
    names = set()
    for p in antt("specs") + antt("proofs"):
        for m in IMPORT.finditer(read(p)):
            if not re.match(r"Rattle\.(?!std|core|io|libc)", m.group(1)):
                names |= {w.strip() for w in m.group(2).split(",")}
    return names


def respelt(name, known):
    """Parts that a dash joins stay joined by it where both are names of functions; else an underscore joins them."""
    if not name[0].islower():
        return name
    parts = snake(name).split("-")
    out = parts[0]
    for before, part in zip(parts, parts[1:]):
        out += ("-" if before in known and part in known else "_") + part
    return out


def main():
    words, lemmas = declared()
    kit = imported()
    known = {snake(w) for w in words} | {w for w in kit if w and w[0].islower() and "-" not in w}
    turned = {n: respelt(n, known) for n in words}
    taken = set(turned.values())
    for n in lemmas - words:
        b = respelt(n, known)
        # a lemma that would have its function's name gets `_lem`
        turned[n] = b + "_lem" if b in taken else b
    turned = {a: b for a, b in turned.items() if a != b and a not in kit}
    every = (words | lemmas | kit) - set(turned)
    goes = collections.Counter(turned.values())
    apart = {}
    for a, b in sorted(turned.items()):
        # of two that would fall together the one in camel case has the name
        if b in every or goes[b] > 1:
            b = b + "_lem" if "-" in a else b
        if b in every:
            print(f"kept apart: {a} (would be {b})")
        else:
            apart[a] = b
    turned = apart
    told = lambda text, hides=frozenset(): NAME.sub(lambda m: turned.get(m.group(1), m.group(1)) if m.group(1) not in hides else m.group(1), text)
    quoted = lambda text: re.sub(r"`[^`\n]*`", lambda m: told(m.group(0)), text)
    fields = set()
    for p in antt("specs") + antt("proofs"):
        fields |= {m.group(1) for m in map(FIELD.match, read(p).splitlines()) if m}

    def of_antt(text):
        out = []
        for line in text.split("\n"):
            code, dash, comment = line, "", ""
            m = re.search(r"(?:^|\s)-- ", line)
            if m or line.startswith("--"):
                at = m.start() if m else 0
                code, comment = line[:at], line[at:]
            # a name after a dot is a field, unless the path is a module's
            def one(m):
                name, at = m.group(1), m.start()
                if at and code[at - 1] == "." and not re.search(r"Rattle[\w.+-]*\.$", code[:at]) and not re.search(r"(?<![\w.)])[A-Z]\w*\.$", code[:at]):
                    if name not in fields:
                        return name
                return turned.get(name, name)
            out.append(NAME.sub(one, code) + quoted(comment))
        return "\n".join(out)

    def of_rt(text):
        out, depth = [], 0
        clause = False
        for line in text.split("\n"):
            bare = line.strip()
            if bare.startswith("//"):
                out.append(quoted(line))
                continue
            if bare.startswith("ghost use ") or clause or re.match(r"(requires|ensures|ghost|invariant)\*?\b.*\{", bare):
                out.append(of_antt(line))
                if not bare.startswith("ghost use ") or not bare.endswith(";"):
                    depth += line.count("{") - line.count("}")
                    clause = depth > 0
                continue
            out.append(line)
        return "\n".join(out)

    changed = 0
    def write(path, text):
        nonlocal changed
        if text != read(path):
            changed += 1
            if not DRY:
                with open(path, "w", encoding="utf-8") as f:
                    f.write(text)

    # what a new name would hide or meet in a file that has the old one
    for p in antt("specs") + antt("proofs") + sorted(glob.glob("crates/*/src/**/*.rt", recursive=True)):
        text = read(p)
        if p.endswith(".rt"):
            text = "\n".join(l for l in text.split("\n") if not l.strip().startswith("//"))
        names = set(NAME.findall(text))
        for a in names & set(turned):
            if turned[a] in names:
                print(f"look: {p}: has {a} and {turned[a]}")
    for p in antt("specs") + antt("proofs"):
        write(p, of_antt(read(p)))
    for p in sorted(glob.glob("crates/*/src/**/*.rt", recursive=True)):
        write(p, of_rt(read(p)))
    for p in sorted(glob.glob("crates/*/must-fail/*.edit")):
        text = read(p)
        if "file: src/" in text:
            write(p, text)
        else:
            write(p, "\n".join(of_antt(l) if l.startswith(("old:", "new:")) else l for l in text.split("\n")))
    for p in ["README.md", *glob.glob("docs/*.md"), *glob.glob("docs/changes/*.md"), *glob.glob("include/*.h"), *glob.glob("tests/**/*.rs", recursive=True), *glob.glob("model/**/*.rs", recursive=True)]:
        write(p, quoted(read(p)))
    print(f"{len(turned)} names, {changed} files")
    if DRY:
        for a, b in sorted(turned.items()):
            print(f"  {a} -> {b}")


main()
