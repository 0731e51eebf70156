#!/usr/bin/env python3
"""Brings the texts of edits on files of antt to the spelling that respell.py gave the crates, once, after it.

usage: tools/respell_edits.py OLD FILE..    at the top of the repository; OLD is the commit before port.py, FILE an edit

Names in camel case or with hyphens become those that the crates have now, projections are written tight, and paths have their one form.
An edit's texts in Rattle stay as they are. Each text that does not stand once in its file afterwards is printed, to be mended by hand.
"""

import os
import re
import subprocess
import sys

NAME = re.compile(r"[^\W\d◌][\w'₀-₉]*(?:-[\w'₀-₉]+)*")
# a projection that is written apart, a bracket or a mark, a name or an operator
TOKEN = re.compile(r"(?<=\S) \.(?:[^\W\d]\w*|\d+|«\w+»)|[(){};,]|[^\s(){};,]+")
# what ends the term on its left
BETWEEN = {"{", "}", ";", ",", "=", "≡", "≤", "<", "→", "∷", "+", "-", "*", "/", "^", "⊎", "×", "++", "&&", "||", ":", "λ", "record"}


def snake(name):
    return re.sub(r"(?<=[a-z0-9])([A-Z])", lambda m: "_" + m.group(1).lower(), name).replace("-", "_")


def git(*words):
    return subprocess.run(["git", *words], check=True, capture_output=True, text=True).stdout


def names_of(commit):
    """The names that stand in the files of antt of a commit."""
    found = set()
    for path in git("ls-tree", "-r", "--name-only", commit, "crates").split():
        if path.endswith(".antt"):
            found.update(NAME.findall(git("show", f"{commit}:{path}")))
    return found


def mapping(old):
    before, now = names_of(old), names_of("HEAD")
    return {n: snake(n) for n in before - now if snake(n) != n and snake(n) in now}


def tight(text):
    """Projections without a space: `f x .a .b` is `(f x).a.b`, and an argument `(p .a)` is `p.a`."""
    levels = [[]]  # for each bracket that is open its pieces: [the space before it, the text, its kind]
    end = 0
    for m in TOKEN.finditer(text):
        word, space, pieces = m.group(), text[end : m.start()], levels[-1]
        end = m.end()
        if word.startswith(" ."):
            n = len(pieces)
            while n and pieces[n - 1][2] != "between":
                n -= 1
            term = pieces[n:]
            alone = len(term) == 1 and term[0][2] != "path"
            body = "".join((gap if i else "") + piece for i, (gap, piece, _) in enumerate(term))
            pieces[n:] = [[term[0][0], (body if alone else f"({body})") + word[1:], "projected"]]
        elif word == "(":
            levels.append([["", space + word, "between"]])
        elif word == ")":
            if len(pieces) == 2 and pieces[1][2] == "projected" and len(levels) > 1:
                inner, kind = pieces[1][1], "projected"
                space = pieces[0][1][:-1]
            else:
                inner, kind, space = "".join(gap + piece for gap, piece, _ in pieces) + space + word, "term", ""
            if len(levels) > 1:
                levels.pop()
            else:
                pieces.clear()
            levels[-1].append([space, inner, kind])
        else:
            between = word in BETWEEN or word.endswith(".")
            pieces.append([space, word, "between" if between else "path" if "." in word else "term"])
    return "".join(gap + piece for pieces in levels for gap, piece, _ in pieces) + text[end:]


def respelled(text, names):
    text = re.sub(r"Rattle·(\w+)(?:·specs)?\.specs\.", r"Rattle.\1.specs.", text)
    text = text.replace("«", "").replace("»", "")
    return tight(NAME.sub(lambda m: names.get(m.group(), m.group()), text))


def main():
    if len(sys.argv) < 3:
        sys.exit(__doc__)
    names = mapping(sys.argv[1])
    print(f"respell_edits: {len(names)} names")
    for edit in sys.argv[2:]:
        with open(edit, encoding="utf-8") as f:
            lines = f.read().split("\n")
        root = os.path.dirname(os.path.dirname(edit)) if "/must-fail/" in edit else "."
        texts, file, old = {}, "", ""
        for i, line in enumerate(lines):
            word, _, text = line.partition(": ")
            if word == "file":
                file = os.path.join(root, text)
                if file not in texts:
                    with open(file, encoding="utf-8") as f:
                        texts[file] = f.read()
            elif word in ("old", "new"):
                if file.endswith(".antt"):
                    text = respelled(text, names)
                    lines[i] = f"{word}: {text}"
                if word == "old":
                    old = text
                elif texts[file].count(old) == 1:
                    texts[file] = texts[file].replace(old, text)
                else:
                    print(f"left: {edit}: {texts[file].count(old)} times in {file}: {old}")
        with open(edit, "w", encoding="utf-8") as f:
            f.write("\n".join(lines))


main()
