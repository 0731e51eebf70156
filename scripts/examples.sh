#!/bin/sh
# examples.sh PROGRAM: runs the text program on each text in examples/ and compares its output with the file beside it, which
# is also held to what it is there to show.
set -eu
cd "$(dirname "$0")/.."
fail() {
    printf 'examples.sh: %s\n' "$*" >&2
    exit 1
}
[ $# = 1 ] || fail "it takes one argument, the program to run"
[ -x "$1" ] || fail "'$1' is no program"
tab=$(printf '\t')

# shows FILE NUMBER...: FILE has an answer with each number
shows() {
    file=examples/$1
    shift
    for number in "$@"; do
        grep -q "^$number$tab" "$file" || fail "no line of $file has number $number, so it does not show what it should"
    done
}

# document 01's lines with the resets of document 02 (Item 2) and its number 11 (Item 6), tabs shown as spaces
tr ' ' '\t' <<'END' | cmp -s - examples/worked.out || fail "examples/worked.out is not the documents' output"
outcome subscriber left reset wait
0 7 1 1334 0
0 7 0 1667 0
8 7 0 1667 334
8 7 0 1667 1
0 7 0 2000 0
6 7 0 0 0
9 8 0 0 0
0 8 0 2667 0
9 7 0 0 0
11 8 0 0 0
END
tr ' ' '\t' <<'END' | cmp -s - examples/worked.tsv || fail "examples/worked.tsv is not document 01's input"
plan 1 3 1000 2
ask 1000 7 1
ask 1000 7 1
ask 1000 7 1
ask 1333 7 1
ask 1334 7 1
ask 1334 7 3
ask 1334 8 2
ask 2000 8 2
ask 2000 7 1
ask 1999 8 1
END
shows day.out 0 3 4 5 6 8 9 10 11
shows refused-plan.out 1
shows too-many-slots.out 2
shows clock-end.out 3 6 8 9 13

output=$(mktemp)
trap 'rm -f "$output"' EXIT
for text in examples/*.tsv; do
    "$1" <"$text" >"$output" || fail "$1 ends with status $? on $text"
    cmp "$output" "${text%.tsv}.out" || fail "$1 does not print ${text%.tsv}.out for $text"
done
