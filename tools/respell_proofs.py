#!/usr/bin/env python3
"""Brings the proofs by `tie.spec` of a crate to the names that today's Rattle makes of goals, places and steps.

usage: tools/respell_proofs.py NAME..       at the top of the repository

It asks the kit for the names (`rt check --generated DIR --old-names`), so the crates below have to be proved.
"""

import json
import os
import re
import subprocess
import sys
import tempfile

TOP = os.getcwd()
W = r"[^\s(){}.;,@\"«»\[\]\\]+"
TOKEN = re.compile(r"--[^\n]*|\"(?:[^\"\\]|\\.)*\"|" + W)
PRE = re.compile(r"^(overflow|nonzero|offset-bounds|slice-bounds|bounds|invariant-of)-")
OWN = {"type-inv": "type_inv", "well-formed": "well_formed", "yielded-by": "yielded_by"}
VALUES = set("args ranges new last now result initial fn auto type_inv ensures requires".split())


def norm(x):
    return re.sub("-+", "-", x.replace("_", "-"))


def read(p):
    with open(p, encoding="utf-8") as f:
        return f.read()


def names_of(crate):
    with tempfile.TemporaryDirectory() as d:
        r = subprocess.run(["rt", "check", "--generated", d, "--old-names"], cwd=os.path.join(TOP, "crates", crate), capture_output=True, text=True)
        p = os.path.join(d, "names.json")
        if not os.path.exists(p):
            sys.exit(crate + ": no names: " + (r.stdout + r.stderr)[-1500:])
        return json.load(open(p))


def borrowed(crates):
    """The `&mut` parameters of each function, by its name's end, in order."""
    out = {}
    for c in crates:
        for d, ds, fs in os.walk(os.path.join(TOP, "crates", c, "src")):
            for f in fs:
                for m in re.finditer(r"\bfn (\w+)(?:<[^>]*>)?\s*\(([^)]*)\)", read(os.path.join(d, f))):
                    ps = re.findall(r"(\w+)\s*:\s*&(?:'\w+ )?mut\b", m.group(2))
                    if ps:
                        out.setdefault(m.group(1), []).append(ps)
    return out


def table_of(n):
    needs, places, steps, callee = {}, {}, {}, {}
    for old, new in n["needs"]:
        needs.setdefault(norm(old), new)
    for old, new in n["needs"]:
        needs.setdefault(norm(new), new)
    for pl, new in zip(n["places"], n["places_by_name"]):
        places.setdefault(norm(pl[0]), new)
    for new in n["places_by_name"]:
        places.setdefault(norm(new), new)
    for pl in n["places"]:
        o, w = pl[2]
        if o:
            steps.setdefault(norm(o), [])
            if w not in steps[norm(o)]:
                steps[norm(o)].append(w)
            if pl[3]:
                callee[w] = pl[3].split("::")[-1]
    for pl in n["places"]:
        o, w = pl[2]
        if w:
            steps.setdefault(norm(w), [w])
    return needs, places, steps, callee


def need_of(needs, x):
    return needs.get(norm(x)) or needs.get(PRE.sub("", norm(x)))


def turn(crate, path, n, muts, said):
    p = os.path.join(TOP, "crates", crate, "proofs", *path.split("."), "Proof.antt")
    text = read(p)
    needs, places, steps, callee = table_of(n)

    def tie(m):
        k = m.group(1)
        if k.startswith("Need-"):
            new = need_of(needs, k[5:])
            if not new:
                said.append(f"no goal for {k}")
            return "tie.Need-" + (new or k[5:])
        if re.match(r"(invariant|decreases)-", k):
            kind, loop = k.split("-", 1)
            new = next((l[0][1] for l in n["loops"] if norm(l[0][0]) == norm(loop)), None)
            return f"tie.{kind}-{new or loop}"
        if k in ("close", "spec"):
            return m.group(0)
        new = places.get(norm(k))
        if new is None:
            said.append(f"no place {k}")
        return "tie." + (new or k)

    text = re.sub(r"\btie\.(" + W + ")", tie, text)
    unsure = set()

    def one(m):
        w = m.group(0)
        if w.startswith(("--", '"')):
            return w
        before = text[max(0, m.start() - 60) : m.start()]
        if not before.endswith(".") or re.search(r"(?<![\w.])(tie|goal)\.$", before):
            return w
        above = re.search(r"(" + W + r")\.$", before)
        above = above.group(1) if above else ""
        if w in OWN:
            return OWN[w]
        if w == "inv":
            return "invariant"
        if w == "pre":
            return "requires"
        if re.match(r"if|.*-?test$", above):
            if w == "taken":
                return "true"
            if w == "left":
                return "false"
        if above in VALUES:
            return w
        k = norm(w)
        if k in steps:
            if len(steps[k]) > 1:
                unsure.add((w, tuple(steps[k])))
            return steps[k][0]
        return w

    text = TOKEN.sub(one, text)

    def field(m):
        step, of, at = m.groups()
        f = callee.get(step)
        ps = muts.get(f, [])
        if ps and all(x == ps[0] for x in ps) and int(at) < len(ps[0]):
            return f"{step}.new.{ps[0][int(at)]}"
        said.append(f"which parameter is {m.group(0)}?")
        return m.group(0)

    for step in callee:
        text = re.sub(r"(?<![\w-])(" + re.escape(step) + r")\.(new|last)\.(\d)(?![\w'])", field, text)
    own = path.split(".")[-1]
    text = re.sub(r"(?m)^pub (\S+)[-_]spec : ", f"pub {own}_spec : ", text)
    text = re.sub(r"(?m)^(\S+)[-_]spec =", f"{own}_spec =", text)
    text = re.sub(r"\.args\.(\w+)-\d\b", r".args.\1", text)
    text = re.sub(r"sym \(length-map (\S+) \(λ v\. v\)\) ∙ ", "", text)
    for w, all_ in sorted(unsure):
        said.append(f"step {w} is one of {', '.join(all_)}")
    with open(p, "w", encoding="utf-8") as f:
        f.write(text)


def main():
    lines = [l.split("#")[0] for l in read(os.path.join(TOP, "crates.txt")).split("\n")]
    below = {l.split(":")[0].split()[0]: l.split(":")[1].split() for l in lines if ":" in l}
    for crate in sys.argv[1:]:
        names = names_of(crate)
        muts = borrowed([crate] + [c for c in below.get(crate, []) if os.path.isdir(os.path.join(TOP, "crates", c))])
        base = os.path.join(TOP, "crates", crate, "proofs")
        for d, ds, fs in sorted(os.walk(base)):
            if "Proof.antt" in fs and "tie.spec" in read(os.path.join(d, "Proof.antt")):
                path = os.path.relpath(d, base).replace("/", ".")
                said = []
                key = f"Rattle-{crate}-proofs.{path}.Lts"
                if key not in names:
                    print(f"left: {crate} {path}: no names")
                    continue
                turn(crate, path, names[key], muts, said)
                for s in said:
                    print(f"left: {crate} {path}: {s}")


main()
