#!/usr/bin/env python3
"""Respells the repository's own definitions, lemmas, fields and constructors in snake case, once, after the kit's port.py.

usage: tools/snake_names.py [--dry]    at the top of the repository

A name counts as the repository's own where an .antt file of specs/, or of proofs/ outside a function's walk, declares it. Names that the
library has too (imported from it somewhere here) stay. Names of src/, exported C names, strings, inputs and outputs are not touched.
"""

import collections
import glob
import re
import sys

# Where two of the repository's names would fall together, and neither is the other's lemma.
APART = {
    "isS": "is_success", "isF": "is_failure", "isR": "is_running_status", "known-at": "known_at_lem", "afterStop": "past_stop", "endLine": "ended_line",
    "fixedIn": "fixed_within", "isFalse": "is_false_form", "isTrue": "is_true_form", "leftIn": "left_within", "nodeAt": "node_reach", "opOk": "op_fine",
    "scaledFits": "fits_scaled", "sumFits": "fits_sum", "stepIn": "step_within",
}
TOKEN = re.compile(r"[^\s(){}\[\],;.:=λ\"`@⟦⟧⌜⌝]+")
DECLARED = re.compile(r"^[ \t]*(?:(?:pub|abbrev|unfoldable|record|data)[ \t]+)*([^\s(){}\[\],;.:=λ\"`]+)[ \t]*(?:[({][^\n]*?[)}][ \t]*)*:", re.M)
USES = re.compile(r"^[ \t]*(?:pub |ghost )*use ([^\s{]+?)\.?(?:\{([^}]*)\})?;?$", re.M)


def antt():
    return sorted(glob.glob("crates/*/specs/**/*.antt", recursive=True) + glob.glob("crates/*/proofs/**/*.antt", recursive=True))


def snake(name):
    s = re.sub(r"(?<=[a-z0-9])(?=[A-Z])", "_", name).replace("-", "_")
    return s.lower() if name[:1].islower() else s


def wanted(name):
    return name[:1].islower() and (re.search(r"[a-z0-9][A-Z]", name) or "-" in name.strip("-")) and not re.search(r"[^\w'\-₀-₉]", name)


def main():
    texts = {p: open(p, encoding="utf-8").read() for p in antt()}
    crates = {p.split("/")[1] for p in texts}
    own, theirs, declared = set(), set(), set()
    for p, t in texts.items():
        if not p.endswith("/Proof.antt"):
            declared |= {m.group(1) for m in DECLARED.finditer(t)}
        for m in USES.finditer(t):
            parts = m.group(1).split(".")
            mine = parts[0] == "Rattle" and len(parts) > 1 and parts[1] in crates
            if not mine:
                theirs |= {w.split(" as ")[0].strip() for w in (m.group(2) or parts[-1]).split(",")}
    own = {n for n in declared if wanted(n)} - theirs
    new = {n: APART.get(n, snake(n)) for n in own}
    # A lemma that would have its definition's name gets _lem.
    for n in sorted(own):
        if "-" in n and any(m != n and new[m] == new[n] for m in own):
            new[n] += "_lem"
    # names that fall together
    tokens = collections.defaultdict(set)
    for p, t in texts.items():
        for m in TOKEN.finditer(t):
            tokens[m.group()].add(p)
    clashes = []
    for n, s in sorted(new.items()):
        others = [m for m in new if m != n and new[m] == s]
        if others or s in tokens and tokens[s] & tokens[n]:
            clashes.append((n, s, others, sorted(tokens[s] & tokens[n])[:3]))
    for c in clashes:
        print("look:", *c)
    print(f"{len(new)} names, {len(clashes)} to look at")
    if "--dry" in sys.argv:
        return
    files = list(texts) + sorted(glob.glob("crates/*/src/**/*.rt", recursive=True) + glob.glob("crates/*/must-fail/*.edit") + glob.glob("docs/*.md") + glob.glob("*.md") + glob.glob("*/README.md"))
    for p in files:
        t = open(p, encoding="utf-8").read()
        u = TOKEN.sub(lambda m: new.get(m.group(), m.group()), t)
        if u != t:
            open(p, "w", encoding="utf-8").write(u)


main()
