#!/usr/bin/env python3
"""Brings this repository's own names in specs/, proofs/ and clauses to snake case, once, after port.py.

usage: tools/respell.py     at the top of the repository

A name in camel case or with hyphens that stands in specs/ or in a lemma file of proofs/, and that no `use` line takes from a library
of the toolchain, is written in snake case, there and wherever else the crates cite it: in the other files of proofs/, in clauses and
in the comments. Types, modules and the names of src/ stay as they are. LEMMAS are the names that would fall together with another one.
"""

import os
import re
import sys

NAME = re.compile(r"[^\W\d◌][\w'₀-₉]*(?:-[\w'₀-₉]+)*")
USE = re.compile(r"\buse ([\w.]+?)\.\{([^}]*)\}")

# (file, name): a lemma that would have its definition's name ends in `_lem`; `is-digit` and `lent-ok` are in snake case already
LEMMAS = {
    ("law_calls/proofs/Reset.antt", "admits-at"): "admits_at_lem",
    ("text_tsv/proofs/Numerals.antt", "is_digit"): "is_digit_lem",
    ("plans/proofs/Lent.antt", "lent_ok"): "lent_ok_lem",
    ("plans/proofs/are_ok/Proof.antt", "lent_ok"): "lent_ok_lem",
    ("law_history/proofs/Owing.antt", "owed-in"): "owed_in_lem",
    ("ticks/proofs/Limits.antt", "one-to"): "one_to_lem",
}
EVERYWHERE = {"on-clock": "on_clock_lem"}


def snake(name):
    return re.sub(r"(?<=[a-z0-9])([A-Z])", lambda m: "_" + m.group(1).lower(), name).replace("-", "_")


def files(ending):
    for folder, dirs, names in os.walk("crates"):
        dirs[:] = sorted(d for d in dirs if d != "out")
        for name in sorted(names):
            if name.endswith(ending):
                yield os.path.join(folder, name)


def read(path):
    with open(path, encoding="utf-8") as f:
        return f.read()


def split(text, mark):
    """The text and its comments, in turns."""
    return re.split(r"(" + re.escape(mark) + r"[^\n]*)", text)


def own_names():
    crates = {os.path.basename(d) for d in os.listdir("crates")}
    found, kit = set(), set()
    for path in files(".antt"):
        code = "".join(split(read(path), "--")[0::2])
        for module, names in USE.findall(code):
            parts = module.split(".")
            if parts[0] != "Rattle" or parts[1] not in crates:
                kit.update(n.strip().split(" as ")[0] for n in names.split(","))
        if os.path.basename(path) != "Proof.antt":
            found.update(NAME.findall(code))
    return {n for n in found - kit if n[0].islower() and ("-" in n or re.search(r"[a-z0-9][A-Z]", n))}


def main():
    if not os.path.isdir("crates"):
        sys.exit("respell: run it at the top of the repository")
    names = {n: snake(n) for n in own_names()} | EVERYWHERE
    for path in [*files(".antt"), *files(".rt")]:
        local = {n: to for (p, n), to in LEMMAS.items() if os.path.join("crates", p) == path}
        here = names | local
        mark = "--" if path.endswith(".antt") else "//"
        old = read(path)
        pieces = split(old, mark)
        for i, piece in enumerate(pieces):
            prose = i % 2 == 1
            pieces[i] = NAME.sub(lambda m: m.group() if prose and "-" in m.group() else here.get(m.group(), m.group()), piece)
        new = "".join(pieces)
        if new != old:
            with open(path, "w", encoding="utf-8") as f:
                f.write(new)
    print(f"respell: {len(names)} names")


main()
