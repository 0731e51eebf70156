#!/bin/sh
# Prints each line that crosses a layer, and fails if there is one.
#   scripts/layers.sh [FOLDER]   FOLDER has crates.txt and crates/; without it, the repository
set -eu
cd "${1-$(dirname "$0")/..}"

# In crates.txt the crates stand under headings, '## LAYER: WORDS', the lowest layer first, and each names only crates above it. Prints
# each line that names another, or stands under no heading.
upwards=$(awk '
    function report(what) { print "crates.txt:" FNR ": " name " " what }

    BEGIN {
        split("std check io bytes", names, " ")
        for (i in names) toolchain[names[i]]
    }
    FNR == 1 { layer = "" }
    /^## / {
        layer = substr($0, 4)
        sub(/:.*/, "", layer)
    }
    { sub(/#.*/, "") }
    !NF { next }
    {
        name = $1
        sub(/:.*/, "", name)
        sub(/^[^:]*:/, "")
    }

    # it is read twice, first to see where each crate stands
    NR == FNR { place[name] = FNR; home[name] = layer; next }

    layer == "" { report("stands under no heading, \"## LAYER: WORDS\": move it to the layer that it belongs to") }
    {
        for (i = 1; i <= NF; i++) {
            if ($i in place ? place[$i] < FNR : $i in toolchain) continue
            if (!($i in place)) report("names " $i ", which is not listed: list it above, or take it out")
            else if (home[$i] == layer) report("names " $i ", which is not above it: move one of the two lines")
            else report("names " $i " of the later layer \"" home[$i] "\": take " $i " out, or move " name " to that layer")
        }
    }' crates.txt crates.txt)

# What stands above a crate uses laws about its definitions, never their text. Prints each line that unfolds a definition of
# another crate or passes on the right to do so, and each block comment of antt, which it cannot read. The worked examples
# (proofs/Worked.antt of a crate) are computed with the definitions, and are left out; so is out/, which rt makes.
inside=$(find crates/*/[ps]*/ \( -name '*.antt' -o -name '*.rt' \) -not -path 'crates/*/proofs/Worked.antt' -exec awk '
    BEGIN {
        while ((getline line <"crates.txt") > 0) if (line ~ /^[a-z_]+( staticlib)?:/) {
            sub(/[ :].*/, "", line)
            crates[line]
        }
    }

    # A path from its library on: a `use` has brought its first name, or it stands in an attribute of Rattle.
    function whole(name,   head, steps) {
        sub(/^package\./, "", name)
        for (steps = 0; steps < 99; steps++) {
            head = name
            sub(/\..*/, "", head)
            if (!(head in from)) break
            name = from[head] substr(name, length(head) + 1)
        }
        if (rattle && head in crates) name = "Rattle." name
        return name
    }
    # Whether a name or a path leads to another crate of the repository.
    function foreign(name,   parts) {
        split(whole(name), parts, ".")
        return parts[1] == "Rattle" && parts[2] != own && parts[2] in crates
    }
    # Notes where the names come from that `PATH.{a, b as c, N.d}`, `PATH as d` or `PATH` brings.
    function bring(path,   base, names, name, n, i) {
        gsub(/ *[{,;}] */, ",", path)
        gsub(/^ +| +$/, "", path)
        base = ""
        if (path ~ /\.,/) {
            base = path
            sub(/\.,.*/, "", base)
            path = substr(path, length(base) + 3)
        }
        n = split(path, names, ",")
        for (i = 1; i <= n; i++) {
            if (names[i] == "") continue
            name = names[i]
            sub(/ as .*/, "", names[i])
            if (!sub(/.* as +/, "", name)) sub(/.*\./, "", name)
            if (!foreign(name)) from[name] = base (base == "" ? "" : ".") names[i]
        }
        return base == "" ? foreign(names[1]) : foreign(base)
    }
    function report() { print FILENAME ":" FNR ": " line }

    FNR == 1 {
        split(FILENAME, parts, "/")
        own = parts[2]
        rattle = FILENAME ~ /\.rt$/
        split("", from)
        using = listing = 0
    }
    {
        line = $0
        gsub(/"(\\.|[^"\\])*"/, "")
        if (rattle) sub(/\/\/.*/, "")
        else sub(/(^| )--.*/, "")
    }
    !rattle && /\{-/ { report() }

    # a `use` of antt, which goes on until its brace is closed
    rattle ? /^ *ghost use / : /^ *(unfoldable +)?(pub +)?use / { using = 1; text = "" }
    using {
        text = text " " $0
        if (text ~ /\{/ && text !~ /\}/) next
        using = 0
        passes = text ~ /^ *unfoldable /
        sub(/^ *(unfoldable +)?((pub|ghost) +)?use +/, "", text)
        if (bring(text) && passes) report()
        next
    }

    # `unfolding NAME..`, which goes on in lines that are further in, `unfold NAME.. in`, and in Rattle an attribute with
    # `unfolding(PATH, ..)`
    {
        indent = match($0, /[^ ]/)
        if (indent && indent <= margin) listing = 0
        if (rattle) {
            gsub(/::/, ".")
            gsub(/\)/, " in ")
        }
        gsub(/[()}{,;]/, " ")
        found = 0
        for (i = 1; i <= NF; i++) {
            if ($i == "unfolding" || $i == "unfold") { listing = 1; margin = rattle || $i == "unfold" ? 0 : indent }
            else if ($i == "in") listing = 0
            else if (listing && foreign($i)) found = 1
        }
        if (found) report()
    }' {} +)

[ -z "$upwards$inside" ] || {
    printf '%s\n' "$upwards" "$inside" | grep .
    exit 1
}
