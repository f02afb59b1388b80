#!/usr/bin/env python3
"""Brings this repository's own definitions and lemmas to the spelling of today's Rattle, after the kit's port.py.

usage: tools/respell.py [--names]       at the top of the repository; --names prints each old and new name and changes nothing

A definition or lemma in camel case becomes snake case, as `stepState` step_state. In a name with dashes, a dash stays where it joins two
names of definitions, and is `_` elsewhere; a field of a record in specs/ has `_` alone. Types, modules, operators and names of the source
stay. A name is ours in a file of proofs or specs where the file declares it or imports it from a crate of this repository. A lemma whose
new name is a definition's gets `_law` after it: `look:` lines name those.
"""

import os
import re
import sys
from collections import defaultdict

TOP = os.getcwd()
CRATES = os.path.join(TOP, "crates")
ID = r"[^\s(){}.;,@\"«»\[\]\\:λ]+"
DECLARED = re.compile(
    r"^(\s*)(?:(abbrev|unfoldable|ruleset)\s+)?(pub\s+)?(record\s+|data\s+|module\s+)?(" + ID + r")((?:\s+(?:\{[^}]*\}|\([^)]*\)|" + ID + r"))*)\s*:(?:\s|$)"
)
TOKEN = re.compile(r"--[^\n]*|\"(?:[^\"\\]|\\.)*\"|" + ID)
USE = re.compile(r"^(\s*(?:pub\s+)?use\s+)([^{\n]*?)\.\{([^}]*)\}", re.M)
KEEP = set("open use pub abbrev unfoldable unfolding record data module where let in".split())


def antt_files():
    for folder, dirs, files in os.walk(CRATES):
        dirs[:] = sorted(d for d in dirs if d != "out")
        for f in sorted(files):
            if f.endswith(".antt"):
                yield os.path.join(folder, f)


def read(p):
    with open(p, encoding="utf-8") as f:
        return f.read()


def is_walk(p):
    return "/specs/" not in p and os.path.basename(p) in ("Proof.antt", "Invariants.antt", "Answers.antt")


def declared(text):
    """The names that a file declares, with whether each is a field or a local of a record (indented in a record)."""
    names = {}
    record = -1
    for line in text.split("\n"):
        bare = line.lstrip()
        deep = len(line) - len(bare)
        if not bare or bare.startswith("--"):
            continue
        if record >= 0 and deep <= record:
            record = -1
        m = DECLARED.match(line)
        if m and m.group(5) not in KEEP:
            names.setdefault(m.group(5), record >= 0)
        if re.match(r"(abbrev\s+|unfoldable\s+)?(pub\s+)?record\s", bare):
            record = deep
        if re.match(r"(pub\s+)?data\s", bare):
            record = deep
    return names


def humps(name):
    name = name.replace("getD", "get_or")
    name = re.sub(r"(?<=[a-z0-9])([A-Z])(?=[a-z0-9'-]|$)", lambda m: "_" + m.group(1).lower(), name)
    name = re.sub(r"(?<=[a-z0-9])([A-Z]+)", lambda m: "_" + m.group(1).lower(), name)
    return re.sub(r"(?<=[a-z])([ℤℕ])", r"_\1", name)


def is_own(name):
    return not name[0].isupper() and not any(c in "◌·∷⊎≡" for c in name)


def main():
    files = {p: read(p) for p in antt_files()}
    crates = {d for d in os.listdir(CRATES)}
    decl = {p: declared(t) for p, t in files.items()}
    words = set("length append take drop map reverse sum set get zip replicate add sub mul div suc zero".split())
    fields = set()
    lemmas = set()
    for p, names in decl.items():
        spec = "/specs/" in p
        for n, field in names.items():
            if not is_own(n):
                continue
            if spec:
                words.add(n)
                if field:
                    fields.add(n)
            elif not is_walk(p):
                lemmas.add(n)
                if field:
                    fields.add(n)
    new_words = {humps(w) for w in words}

    def respelled(n):
        new = humps(n)
        if "-" not in new.strip("-"):
            return new
        if n in fields or (n in words and n not in lemmas):
            return new.replace("-", "_")
        parts = new.split("-")
        out = parts[0]
        for a, b in zip(parts, parts[1:]):
            out += ("-" if a in new_words and b in new_words else "_") + b
        return out

    table = {}
    for n in sorted(words | lemmas):
        if is_own(n) and respelled(n) != n:
            table[n] = respelled(n)
    taken = (words | lemmas) - set(table)
    byNew = defaultdict(list)
    for n, v in table.items():
        byNew[v].append(n)
    for v, olds in sorted(byNew.items()):
        first = sorted(olds, key=lambda x: (x not in words, x))[0]
        if v in taken and v not in words and first in words:
            table[v] = v + "_law"
            print(f"look: {v} is {table[v]}, since {first} is {v} now", file=sys.stderr)
            olds = [n for n in olds if n != first]
        elif v not in taken:
            olds = [n for n in olds if n != first]
        for n in olds:
            table[n] = v + ("_word" if n in words else "_law")
            print(f"look: {n} is {table[n]}, since {v} is another's", file=sys.stderr)
    if "--names" in sys.argv:
        for n, v in sorted(table.items()):
            print(n, v)
        return

    ours = re.compile(r"^Rattle\.(" + "|".join(sorted(crates)) + r")\.")
    for p, t in files.items():
        mine = {n for n in decl[p] if n in table and not (is_walk(p))}
        for m in USE.finditer(t):
            if ours.match(m.group(2)):
                for n in re.split(r",\s*", m.group(3)):
                    for one in n.split(" as "):
                        if one.strip() in table:
                            mine.add(one.strip())
        local = {n for n in decl[p] if n in table} if is_walk(p) else set()
        for m in re.finditer(r"unfolding ([^\n]*)", t):
            mine |= {n for n in m.group(1).split() if n in table and n not in local}

        def turn(m, t=t, mine=mine):
            w = m.group(0)
            if w.startswith("--"):
                return re.sub(r"`(" + ID + r")`", lambda k: "`" + table.get(k.group(1), k.group(1)) + "`", w)
            if w not in table:
                return w
            before = t[: m.start()]
            if before.endswith("."):
                # a projection, or a name of a module
                root = re.search(r"(" + ID + r")\.$", before)
                if w in fields or (root and root.group(1)[0].isupper()):
                    return table[w]
                return w
            if w in mine or w in fields:
                return table[w]
            return w

        new = TOKEN.sub(turn, t)
        bare = {m.group(0) for m in TOKEN.finditer(t) if t[m.start() - 1 : m.start()] != "."}
        for n in sorted(bare & set(table)):
            if n in mine and table[n] in bare and table.get(table[n], table[n]) == table[n]:
                print(f"look: {os.path.relpath(p, TOP)}: {n} and {table[n]} fall together", file=sys.stderr)
        if new != t:
            with open(p, "w", encoding="utf-8") as f:
                f.write(new)

    # contracts, ghost items and comments of the source, edits, scripts and pages: no name of code is in camel case or has a dash
    camel = {n: v for n, v in table.items() if re.search(r"[a-z0-9][A-Z]", n) or re.search(r"[a-z][ℤℕ]", n)}
    dashed = {n: v for n, v in table.items() if n not in camel and n in words}
    CAMEL = re.compile(r"(?<![\w'-])(" + "|".join(sorted(map(re.escape, camel), key=len, reverse=True)) + r")(?![\w'-])")
    DASHED = re.compile(r"(?<![\w'-])(" + "|".join(sorted(map(re.escape, dashed), key=len, reverse=True)) + r")(?![\w'-])") if dashed else None
    lemma = {n: v for n, v in table.items() if n not in camel and n not in dashed}
    TICKED = re.compile(r"`(" + ID + r")`")
    for folder, dirs, names in os.walk(TOP):
        dirs[:] = sorted(d for d in dirs if d not in ("out", ".git", "target"))
        for f in sorted(names):
            p = os.path.join(folder, f)
            rel = os.path.relpath(p, TOP)
            if rel.startswith("tools/") or rel.startswith("docs/PORT"):
                continue
            if f.endswith(".rt"):
                t = read(p)
                new = CAMEL.sub(lambda m: camel[m.group(1)], t)
                new = re.sub(
                    r"(?m)^(\s*(?:ensures|requires|ghost)[^\n]*)$",
                    lambda m: DASHED.sub(lambda k: dashed[k.group(1)], m.group(1)) if DASHED else m.group(1),
                    new,
                )
            elif f.endswith(".edit"):
                t = read(p)
                new = CAMEL.sub(lambda m: camel[m.group(1)], t)
                if re.search(r"^file: (specs|proofs)/", t, re.M):
                    new = re.sub(r"(?m)^(old|new):[^\n]*$", lambda m: TOKEN.sub(lambda k: table.get(k.group(0), k.group(0)) if k.group(0) not in ("set-rate",) else k.group(0), m.group(0)), new)
            elif f.endswith((".md", ".txt")) and not rel.startswith("wip/") and not rel.startswith("crates/") or rel.startswith(".ci/"):
                t = read(p)
                new = CAMEL.sub(lambda m: camel[m.group(1)], t)
                if not rel.startswith(".ci/"):
                    new = TICKED.sub(lambda m: "`" + table.get(m.group(1), m.group(1)) + "`", new)
            else:
                continue
            if new != t:
                with open(p, "w", encoding="utf-8") as g:
                    g.write(new)


main()
