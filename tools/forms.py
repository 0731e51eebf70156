#!/usr/bin/env python3
"""Lists the places in crates/*/src that docs/DESIGN-PASS.md counts, point by point.

  tools/forms.py [ROOT]            the counts
  tools/forms.py [ROOT] --places   .. and each place

It finds candidates by their text; the page says which of them are places of the point, and which are not and why.
"""
import collections
import glob
import os
import re
import sys

HEAD = re.compile(r"^( *)(?:pub(?:\([a-z]+\))? )?(?:const )?(?:extern \"C\" )?fn ([a-z_0-9]+)", re.M)


def sources(root):
    for path in sorted(glob.glob(os.path.join(root, "crates/*/src/**/*.rt"), recursive=True)):
        yield os.path.relpath(path, root), open(path).read()


def grep(files, pattern):
    found = []
    for path, text in files:
        for number, line in enumerate(text.split("\n"), 1):
            if re.search(pattern, line) and not line.lstrip().startswith("//"):
                found.append((f"{path}:{number}", line.strip()))
    return found


def functions(files):
    """Each function: its path, line, name, parameters, and clauses."""
    for path, text in files:
        for m in HEAD.finditer(text):
            begin = text.index("(", m.end())
            depth, end = 0, begin
            while True:
                depth += {"(": 1, ")": -1}.get(text[end], 0)
                end += 1
                if depth == 0:
                    break
            inner = text[begin + 1:end - 1]
            parts, depth, last = [], 0, 0
            for i, c in enumerate(inner + ","):
                depth += {"(": 1, "[": 1, "<": 1, ")": -1, "]": -1, ">": -1}.get(c, 0)
                if c == "," and depth == 0:
                    if inner[last:i].strip():
                        parts.append(inner[last:i].strip())
                    last = i + 1
            stop = re.compile(r"^" + m.group(1) + r"(\{|\S[^\n]*\{\s*$|.*;\s*$)", re.M)
            body = re.search(r"\n" + m.group(1) + r"\{|\{\n", text[end:])
            clauses = text[end:end + body.start()] if body else ""
            yield f"{path}:{text.count(chr(10), 0, m.start()) + 1}", m.group(2), parts, clauses


def same_name(files):
    by = collections.defaultdict(list)
    for at, name, _, _ in functions(files):
        by[name].append(at)
    for path, text in files:
        for m in re.finditer(r"^pub (?:struct|enum|trait) ([A-Za-z0-9]+)", text, re.M):
            by[m.group(1)].append(f"{path}:{text.count(chr(10), 0, m.start()) + 1}")
    return [(at, name) for name, ats in sorted(by.items()) if len(ats) > 1 for at in ats]


def sized_names(files):
    return [(at, name) for at, name, _, _ in functions(files) if re.search(r"_u(8|16|32|64)$|_own$", name)]


def long_lists(files):
    return [(at, f"{name}({', '.join(p.split(':')[0] for p in parts)})")
            for at, name, parts, _ in functions(files) if len(parts) >= 5]


def repeated_facts(files):
    """Words that a `requires` of three or more functions has."""
    by = collections.defaultdict(list)
    for at, name, _, clauses in functions(files):
        words = set()
        for clause in re.findall(r"requires[^{]*\{([^{}]*)\}", clauses):
            words |= set(re.findall(r"\b[A-Z][A-Za-z]+\b", clause)) | set(re.findall(r"≤ (?:length \w+|\d+)", clause))
        for word in words:
            by[word].append(f"{at} {name}")
    return [(word, f"{len(ats)}: {', '.join(a.split(' ')[1] for a in ats)}") for word, ats in sorted(by.items()) if len(ats) >= 3]


def with_length(files):
    """A slice or an array, and directly after it a place or a length in it."""
    return [(at, f"{name}: {a.split(':')[0]}, {b.split(':')[0]}") for at, name, parts, _ in functions(files)
            for a, b in zip(parts, parts[1:]) if re.search(r"&(mut )?\[", a) and re.search(r": usize$", b)]


def columns(files):
    """Two or more slices or arrays beside each other, of numbers that belong together."""
    return [(at, f"{name}: {', '.join(p.split(':')[0] for p in parts if re.search('ids|numbers|tats|levels|lasts', p.split(':')[0]))}")
            for at, name, parts, _ in functions(files)
            if len([p for p in parts if re.match(r"(ids|numbers|tats|levels|lasts):", p)]) >= 2]


POINTS = [
    ("1 enums", lambda f: grep(f, r"^pub enum|^enum")),
    ("1 functions that answer bool", lambda f: [(at, n) for at, n, _, _ in functions(f) if re.search(r"-> bool\s*$", f_head(f, at), re.M)]),
    ("1 numbers for kinds", lambda f: grep(f, r"reason_number\(|Refused\(u64\)|UNREADABLE|number == \d|refusal\(")),
    ("2 names that stand more than once", same_name),
    ("2 names that say a type or a side", sized_names),
    ("3 loops", lambda f: grep(f, r"^\s*(while|loop|for) ?\b")),
    ("4 conversions and comparisons written as functions", lambda f: [(at, n) for at, n, _, _ in functions(f) if re.match(
        r"(to_\w+|from|reason_number|same|smaller|larger|least|five|told|two|flag|product|since|bare|refusal|is_one_to|is_slot_count|is_text_slots|fmt|eq|cmp)$", n)]),
    ("5 functions of five parameters or more", long_lists),
    ("5 words in the requires of three functions or more", repeated_facts),
    ("6 a buffer and a place or length in it", with_length),
    ("6 parallel columns", columns),
    ("7 function pointers, dyn, matches on a step", lambda f: grep(f, r"\bdyn\b|: fn\(|match stage|match .*step")),
]


def f_head(files, at):
    path, line = at.rsplit(":", 1)
    text = dict(files)[path].split("\n")
    out = []
    for row in text[int(line) - 1:int(line) + 14]:
        out.append(row)
        if re.search(r"->|^\s*\)|\{$", row):
            break
    return "\n".join(out).rstrip(" {")


def proofs(root):
    files = glob.glob(os.path.join(root, "crates/*/proofs/**/Answers.antt"), recursive=True)
    return len(files), sum(len(re.findall(r"^pub [^\n:]+ : goal\.", open(p).read(), re.M)) for p in files), \
        sum(open(p).read().count("\n") for p in glob.glob(os.path.join(root, "crates/*/proofs/**/*.antt"), recursive=True))


def main():
    names = [a for a in sys.argv[1:] if not a.startswith("-")]
    root = names[0] if names else os.path.join(os.path.dirname(os.path.abspath(__file__)), "..")
    files = list(sources(root))
    for title, find in POINTS:
        found = find(files)
        print(f"{title}: {len(found)}")
        if "--places" in sys.argv:
            for at, what in found:
                print(f"    {at}  {what}")
    count, goals, lines = proofs(root)
    print(f"8 files Answers.antt: {count}, goals answered in them: {goals}, lines of proofs/: {lines}")


if __name__ == "__main__":
    main()
