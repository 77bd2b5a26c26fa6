#!/usr/bin/env python3
"""Brings the names of this repository's definitions, fields, constructors and lemmas to today's spelling: words in snake case.

usage: python3 tools/snake_case_names.py     at the top of the repository, once, right after the kit's own script

A name is turned where a file of specs/ or proofs/ declares it, and wherever a source, a definition, a proof or an edit names it. Types and
modules keep their capitals; names that Rattle makes from the source (those of goals, invariants and measures) are left alone.
"""

import pathlib
import re
import sys

# Names that would fall together with another one, and what they are called instead.
APART = {
    "bit-or": "bit_of_or",
    "ends-full": "ends_full_lem",
}
# What answers a goal has the goal's name, which Rattle makes.
MADE = re.compile(r" : (goal|need|given)\.")
# Names that no file of specs/ or proofs/ declares: a ghost member, a parameter, and what two imports are called.
OTHERS = {"asValue", "toValue", "numbersOf", "hasExactly"}
WORD = r"[^\s(){}\[\];,.:\"λ≡→]+"
DECLARED = re.compile(r"^\s*(?:(?:abbrev|unfoldable|pub|ruleset) )*(" + WORD + r")(?: [^:]*)? : ")
CONSTRUCTOR = re.compile(r"^\s+(?:\| )?([a-z]" + WORD + r") : ")


def snake(name):
    if name in APART:
        return APART[name]
    out = re.sub(r"(?<=[a-z0-9])([A-Z])", lambda m: "_" + m[1].lower(), name)
    out = re.sub(r"(?<=[a-z])ℤ", "_ℤ", out)
    return out.replace("-", "_").replace("′", "'")


def files(root):
    for p in sorted((root / "crates").rglob("*")):
        if "out" not in p.parts and p.suffix in (".antt", ".rt", ".edit") and p.is_file():
            yield p


def names(root):
    found = set(OTHERS)
    for p in files(root):
        if p.suffix != ".antt" or p.name == "Lib.antt":
            continue
        for line in p.read_text(encoding="utf-8").splitlines():
            m = DECLARED.match(line) or CONSTRUCTOR.match(line)
            if m and not line.lstrip().startswith("--") and not MADE.search(line):
                found.add(m[1])
    return {n for n in found if n[0].islower() and snake(n) != n}, found


def main():
    root = pathlib.Path(".")
    turned, all_names = names(root)
    into = {}
    for n in sorted(turned):
        into.setdefault(snake(n), []).append(n)
    clash = {k: v for k, v in into.items() if len(v) > 1 or k in all_names}
    if clash:
        sys.exit(f"names that fall together: {clash}")
    edge = r"[\w'\-·◌′ℤ]"
    word = re.compile(f"(?<!{edge})(" + "|".join(sorted(map(re.escape, turned), key=len, reverse=True)) + f")(?!{edge})")
    for p in files(root):
        old = p.read_text(encoding="utf-8")
        new = word.sub(lambda m: snake(m[1]), old)
        if new != old:
            p.write_text(new, encoding="utf-8")
    print(f"{len(turned)} names turned")


if __name__ == "__main__":
    main()
