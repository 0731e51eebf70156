#!/bin/sh
# readme.sh FILE...: README shows each FILE as it is, in a fenced block after the line '<!-- FILE -->', and no other file in
# this way.
set -eu
cd "$(dirname "$0")/.."
fail() {
    printf 'readme.sh: %s\n' "$*" >&2
    exit 1
}
[ $# -gt 0 ] || fail "it takes the files that README must show"
shown=$(mktemp)
trap 'rm -f "$shown"' EXIT

for file in "$@"; do
    awk -v mark="<!-- $file -->" '
        on && /^```$/ { exit }
        on { print }
        marked && /^```/ { on = 1 }
        { marked = $0 == mark }' README.md >"$shown"
    diff "$shown" "$file" >&2 || fail "what README shows after '<!-- $file -->' (<) is not $file (>)"
done
marks=$(grep -c '^<!-- .*/.* -->$' README.md)
[ "$marks" = $# ] || fail "README shows $marks files, and $# of them were compared"
