#!/bin/sh
# The list at the top of docs/DECISIONS.md must have the headings of its decisions, in their order. Prints what differs.
set -eu
cd "$(dirname "$0")/.."
listed=$(mktemp)
trap 'rm -f "$listed"' EXIT
sed -n '/^## /q; s/^- //p' docs/DECISIONS.md >"$listed"
[ -s "$listed" ] || { echo "docs/DECISIONS.md begins with no list"; exit 1; }
sed -n 's/^### //p' docs/DECISIONS.md | diff "$listed" -
