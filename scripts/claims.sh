#!/bin/sh
# docs/CLAIMS.md against the tree. Prints each line that is wrong, and fails if there is one.
#   scripts/claims.sh [FILE]                  each name in backquotes is there, as what its column says and in the crate or file
#                                             that is named right after it; and every must-fail edit and wrong archive is named
#   scripts/claims.sh --verdicts LOG [FILE]   the verdict lines that it shows are those in LOG, which has those of all crates
# FILE, by its path from the root of the repository, takes its place.
set -eu
cd "$(dirname "$0")/.."
fail() {
    printf 'claims.sh: %s\n' "$*" >&2
    exit 1
}
found=$(mktemp)
trap 'rm -f "$found"' EXIT
log=
if [ "${1-}" = --verdicts ]; then
    [ $# -ge 2 ] || fail "--verdicts takes a log with the verdicts of all crates"
    log=$2
    [ -r "$log" ] || fail "there is no log '$log'"
    shift 2
fi
claims=${1-docs/CLAIMS.md}
[ -r "$claims" ] || fail "there is no file '$claims'"

# What there is, a line each: the kind, the crate, the file without its ending, the name, and the record or type that it belongs to.
things() {
    # antt: names with a type; the proofs of contracts, in folders of their own, state nothing
    awk '
        FNR == 1 {
            split(FILENAME, parts, "/")
            crate = parts[2]
            folder = parts[3]
            file = parts[4]
            sub(/\.antt$/, "", file)
            record = ""
            print "module", crate, folder "/" file, file
        }
        { sub(/(^| )--.*/, "") }
        !NF { next }
        {
            indent = match($0, /[^ ]/)
            if (indent <= margin) record = ""
            i = 1
            while ($i ~ /^(pub|abbrev|unfoldable|opaque)$/) i++
            if ($i ~ /^(record|data)$/) {
                record = $(i + 1)
                margin = indent
                print "antt", crate, folder "/" file, record
                next
            }
            if ($(i + 1) == ":") print "antt", crate, folder "/" file, $i, record
        }' crates/*/specs/*.antt crates/*/proofs/*.antt
    # Rattle: functions, constants, types and their variants
    awk '
        FNR == 1 {
            split(FILENAME, parts, "/")
            crate = parts[2]
            file = parts[4]
            sub(/\.rt$/, "", file)
            type = ""
            print "rt", crate, file, file
        }
        /^}/ { type = "" }
        {
            sub(/\/\/.*/, "")
            gsub(/<[^>]*>/, "")
            sub(/[({:;,].*/, "")
            i = 1
            while ($i ~ /^(pub|extern|"C")$/) i++
            if ($i ~ /^(struct|enum|impl)$/) {
                type = $(i + 1)
                print "rt", crate, file, type
            } else if ($i ~ /^(fn|const)$/) print "rt", crate, file, $(i + 1), type
            else if (type != "" && /^    [A-Z]/) print "rt", crate, file, $1, type
        }' crates/*/src/*.rt
    for edit in crates/*/must-fail/*.edit; do
        label=${edit##*/}
        crate=${edit#crates/}
        echo "edit ${crate%%/*} - ${label%.edit}"
    done
    for edit in hosts/wrong-archives/*.edit; do
        label=${edit##*/}
        echo "archive - - ${label%.edit}"
    done
    sed -En 's/^([a-z_]+)( staticlib)?:.*/crate - - \1/p' crates.txt
    # the faults that the comparisons list with '--spoil list'
    grep -ho '"[a-z]*\(-[a-z]*\)*"' hosts/rust/*/src/spoil.rs hosts/rust/*/src/spoil/*.rs | sed 's/"\(.*\)"/fault - - \1/'
    # what its report calls the parts of the comparison of calls
    grep -ho '"[a-z]*"' hosts/rust/differential/src/*.rs | sed 's/"\(.*\)"/part - - \1/'
    # files and folders by their whole path, or from below crates/ or hosts/c/; not what rt and cargo make
    find . -name .git -prune -o -name target -prune -o -path ./build -prune -o -print | sed -n 's,^\./,,p' | awk '
        /^crates\/[^\/]*\/out(\/|$)/ { next }
        { print "path - -", $0 }
        sub(/^crates\//, "") || sub(/^hosts\/c\//, "") { print "path - -", $0 }'
}

names() {
    things | awk '
        # what names nothing of the tree: a word of the language and two of the verdict lines, the folders of a crate, how the names
        # of the interfaces begin, a promise, a function of C and a law of the toolchain, a number in a text
        BEGIN {
            n = split("requires|axioms=|foreign=|specs|proofs|src|must-fail|c_|result ≡ div_up a d|memset|sets-eq|0", words, "|")
            for (i = 1; i <= n; i++) plain[words[i]]
        }
        function report(what) { print claims ":" FNR ": " what }

        # an antt name stands in a file, of its crate or of any, in a folder that is named or in either
        function standing(crate, file, path, name) {
            there["antt in", crate, file, name]; there["antt in", crate, path, name]
            there["antt in", "", file, name]; there["antt in", "", path, name]
        }

        # what there is
        tree {
            there[$1, $4]
            if ($1 == "crate") crates[$4]
            if ($1 == "edit") edits[$4] = edits[$4] " " $2
            if ($1 == "archive") archives[$4]
            there[$1, $2, $4]
            if ($1 == "antt") {
                file = $3
                sub(/.*\//, "", file)
                standing($2, file, $3, $4)
                if (NF > 4) { there["antt", $5 "." $4]; standing($2, file, $3, $5 "." $4) }
            }
            if ($1 == "rt") {
                there["rt", $3 "::" $4]
                if ($3 == "lib" || $3 == "main") there["rt", $2 "::" $4]
                if (NF > 4) there["rt", $5 "::" $4]
            }
            next
        }

        # the kinds of thing that a column names, by its heading
        function kinds(heading) {
            if (heading ~ /^(Must-fail edits|Tried in)/) return "edit fault"
            if (heading ~ /^(Definition|Law|Excluded by)/) return "antt"
            if (heading ~ /^(Code|Exported function|Function)/) return "rt"
            if (heading ~ /^Wrong archive/) return "archive"
            return "edit archive fault part antt rt module"
        }
        function is(name, any,   kind, n, i) {
            n = split(any, kind, " ")
            for (i = 1; i <= n; i++) if ((kind[i], name) in there) return 1
            return 0
        }
        # a command: of the toolchain, or a program of this repository
        function command(name,   word) {
            if (name !~ / /) return name ~ /^\.\// && (("path", substr(name, 3)) in there)
            word = name
            sub(/ .*/, "", word)
            return word == "rt" || (("path", "hosts/rust/" word) in there)
        }
        function of(heading) { return heading == "" ? "" : ", as the column \"" heading "\" has it" }

        # whether there is a `NAME`, in a column with this heading
        function exists(name, heading,   path) {
            named[name]
            path = name
            sub(/\/$/, "", path)
            if (path in plain || name in crates || command(name)) return 1
            if (name ~ /\// || name ~ /\.(c|h|rs|py|antt|rt|sh)$/) {
                if (("path", path) in there) return 1
                report("there is no file or folder `" name "`: correct the path")
            } else {
                if (is(name, kinds(heading))) return 1
                report("there is no `" name "`" of(heading) ": correct the name, or take it out")
            }
            return 0
        }
        # `NAME` stands in the file, if one is given, of the crate, or of any if it is ""
        function stands(name, crate, file) {
            if (file != "" && !(("antt in", crate, file, name) in there))
                report("`" name "` does not stand in " file (crate == "" ? " of any crate" : " of the crate " crate) ": correct the file")
            if (file == "" && !(("edit", crate, name) in there || ("antt", crate, name) in there || ("rt", crate, last(name)) in there))
                report("`" name "` does not stand in the crate " crate ": correct the crate")
        }
        function last(name) { sub(/.*::/, "", name); return name }

        # the pieces of a line: at odd places text, at even ones a name
        {
            count = split($0, piece, "`")
            if (count && count % 2 == 0) {
                report("a backquote has no second in its line, where names are looked for: add it")
                count = 0
            }
            row = /^\|/
            column = listed = 0
            for (i = 1; i <= count; i++) {
                if (i % 2) {
                    if (row) column += gsub(/\|/, "|", piece[i])
                    if (piece[i] !~ /^(, | and |, and )$/) listed = 0
                    continue
                }
                if (!exists(piece[i], row ? head[column] : "")) continue
                list[++listed] = piece[i]

                # a crate right before the name: `CRATE`: `NAME`, or with an apostrophe
                if (piece[i - 2] in crates && piece[i - 1] ~ /^(\047s?|:) $/) stands(piece[i], piece[i - 2], "")

                # the crate or the file right after the names, in parentheses
                after = piece[i + 1]
                crate = file = ""
                if (after ~ /^ \(([a-z_]+, )?((proofs|specs)\/)?[A-Z][A-Za-z0-9]*(, [A-Z][A-Za-z0-9]*)*\)/) {
                    file = after
                    sub(/^ \(/, "", file)
                    sub(/\).*/, "", file)
                    if (file ~ /^[a-z_]+, /) {
                        crate = file
                        sub(/,.*/, "", crate)
                        sub(/^[a-z_]+, /, "", file)
                    }
                } else if (after == " (" && piece[i + 2] in crates && piece[i + 3] ~ /^(, ((proofs|specs)\/)?[A-Z][A-Za-z0-9]*)?\)/) {
                    crate = piece[i + 2]
                    file = piece[i + 3]
                    sub(/\).*/, "", file)
                    sub(/^, /, "", file)
                } else continue
                files = split(file, in_file, ", ")
                if (!files) { stands(piece[i], crate, ""); continue }
                for (j = 1; j <= listed; j++) for (k = 1; k <= files; k++) stands(list[j], crate, in_file[k])
            }
        }
        # the line under the headings of a table
        /^\|[-|]+\|$/ {
            n = split(above, cells, / *\| */)
            for (i = 2; i <= n; i++) head[i - 1] = cells[i]
        }
        !/^\|/ { split("", head) }
        { above = $0 }

        END {
            for (label in edits) if (!(label in named))
                print claims ": the must-fail edit `" label "` of" edits[label] " is not named: name it beside its claim"
            for (label in archives) if (!(label in named))
                print claims ": the wrong archive `" label "` is not named: name it where the others are"
        }' claims="$claims" tree=1 - tree=0 "$claims"
}

verdicts() {
    awk '
        function report(what) { print claims ":" FNR ": " what }
        function key(word) { sub(/=.*/, "", word); return word }
        # the log: what is said of a crate stands below a line `== CRATE`, and of its tests below another
        logged {
            if (/^== /) crate = NF == 2 ? $2 : ""
            if (/^logic=/ && crate != "") log_of[crate] = $0
            next
        }
        # the claims: lines that are further in, `CRATE logic=proved ..`; ".." stands for what the first line shows, and the target and
        # processor of a static library
        /^    [a-z_]+ +logic=/ {
            name = $1
            shown[name]
            split("", here)
            rest = 0
            for (i = 2; i <= NF && $i !~ /^\(/; i++) {
                if ($i == "..") rest = 1
                else here[key($i)] = $i
            }
            if (!(name in log_of)) {
                report("the log has no verdict of " name ": take the line out, or prove the crate")
                if (!rest) for (k in here) if (k != "functions") first[here[k]]
                next
            }
            n = split(log_of[name], words, " ")
            split("", said)
            for (i = 1; i <= n; i++) {
                said[words[i]]
                if (!rest && words[i] !~ /^functions=/) first[words[i]]
            }
            for (k in here) if (!(here[k] in said)) report(name " is shown with " here[k] ", and its verdict is: " log_of[name])
            for (i = 1; i <= n; i++) {
                if (key(words[i]) in here || rest && (words[i] in first || words[i] ~ /^(target|cpu)=/)) continue
                report(name " is shown without " words[i] ", which its verdict has: add it")
            }
        }
        END {
            while ((getline line <"crates.txt") > 0) if (line ~ /^[a-z_]+( staticlib)?:/) {
                sub(/[ :].*/, "", line)
                if (!(line in shown)) print claims ": no line shows the verdict of " line ": " log_of[line]
            }
        }' claims="$claims" logged=1 "$log" logged=0 "$claims"
}

if [ -n "$log" ]; then verdicts >"$found"; else names >"$found"; fi
[ ! -s "$found" ] || {
    sort -t: -k2n "$found"
    exit 1
}
