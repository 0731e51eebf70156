#!/bin/sh
# Wrong archives. Each edit in hosts/wrong-archives moves a definition and its code alike, and a law that says otherwise, so that the
# code is proved all the same; the archive that comes of it must be told from the second implementation by the comparison of calls.
#   scripts/wrong_archives.sh [LABEL..]            builds and compares each (without a LABEL, all); it needs what ./test needs
#   scripts/wrong_archives.sh --apply [LABEL..]    only makes each edit
#   scripts/wrong_archives.sh --build [LABEL..]    only makes each edit, proves the copy and builds what differs
#   scripts/wrong_archives.sh --compare [LABEL..]  only links what --build left with the rest of the right archive, and compares
# An edit has the form of the must-fail edits, its paths from the root of the repository; '# part: CRATE' names the crate that exports
# the part of the archive that is built from the copy, the other parts being those of the right archive.
set -eu
root=$(cd "$(dirname "$0")/.." && pwd)
. "$root/scripts/steps.sh"

edits=$root/hosts/wrong-archives
# what is built of each; the copies themselves stand outside the checkout, where rt ci would find files that no crate of it lists
built=$build/wrong-archives
copies=$(mktemp -d)
trap 'rm -rf "$copies"' EXIT
# the comparison, as often as the deliberate faults are tried
calls="--seed 1 --calls 20000"

part_of() { sed -n 's/^# part: //p' "$edits/$1.edit"; }

# makes the edit LABEL in a copy of the crates
edit_copy() {
    copy=$copies/$1
    [ -n "$(part_of "$1")" ] || fail "hosts/wrong-archives/$1.edit has no line '# part: CRATE'"
    mkdir "$copy"
    cp "$root/crates.txt" "$copy"
    (
        cd "$root"
        for part in crates/*/src crates/*/specs crates/*/proofs; do
            mkdir -p "$copy/${part%/*}"
            cp -R "$part" "$copy/$part"
        done
        cd "$copy"
        awk '
            function wrong(words) { print FILENAME ":" FNR ": " words >"/dev/stderr"; exit 1 }
            /^file: / { file = substr($0, 7) }
            /^old: / { old = substr($0, 6) }
            /^new:/ {
                text = ""
                while ((getline line <file) > 0) text = text line "\n"
                close(file)
                at = index(text, old)
                if (!at || index(substr(text, at + 1), old)) wrong(file " does not have \"" old "\" exactly once: correct the edit")
                printf "%s", substr(text, 1, at - 1) substr($0, 6) substr(text, at + length(old)) >file
                close(file)
            }' "$edits/$1.edit"
    ) || fail "the edit $1 cannot be made: see above"
}

# proves the copy, and builds its part of the archive; crates that the edit leaves as they are rt takes from another checkout on the
# machine, where one has built them
build_wrong() {
    edit_copy "$1"
    part=$(part_of "$1")
    objects=$built/$1/objects
    log=$built/$1/log
    rm -rf "$built/$1"
    mkdir -p "$objects"
    (cd "$copy/crates/$part" && rt lib && cd "$objects" && ar x "$copy/crates/$part/out/lib$part.a") >"$log" 2>&1 || {
        { grep -E ': error|^error|: not proved|: no proof' "$log" || tail -n 20 "$log"; } | head -n 20 >&2
        fail "the wrong archive $1 is not proved, so it shows nothing: move what is named above in hosts/wrong-archives/$1.edit too"
    }
    rm -rf "$copy"
}

# the comparison must end with 1, and say where the two differ
compare_wrong() {
    made=$built/$1
    part=$(part_of "$1")
    [ -f "$made/objects/$part.o" ] || fail "the wrong archive $1 is not built: --build builds it"
    cp "$build"/objects/*.o "$made"
    cp "$made/objects/$part.o" "$made"
    rm -f "$made/librailcadence_c.a"
    ar rcsD "$made/librailcadence_c.a" "$made"/*.o || fail "no archive can be made from the objects of $1"
    (
        RAILCADENCE_LIB=$made
        CARGO_TARGET_DIR=$build/wrong_cargo
        build_rust differential
    )
    status=0
    "$build/wrong_cargo/release/differential" $calls >"$made/out" 2>"$made/difference" || status=$?
    [ "$status" = 1 ] || {
        cat "$made/difference" >&2
        fail "the comparison ends with status $status for the wrong archive $1, and must end with 1, a difference"
    }
    difference=$(sed -n '/ differ$/p; / differ afterwards$/p' "$made/difference" | head -n 1)
    [ -n "$difference" ] || {
        cat "$made/difference" >&2
        fail "the comparison reports something else than a difference of the wrong archive $1: see above"
    }
    step "    noticed: $1 ($(sed -n '1s/^# //p' "$edits/$1.edit")): $difference"
}

parts="build compare"
case ${1-} in
--apply | --build | --compare)
    parts=${1#--}
    shift
    ;;
--*) fail "there is no option '$1'" ;;
esac
[ $# -gt 0 ] || set -- $(cd "$edits" && ls | sed -n 's/\.edit$//p')

mkdir -p "$build"
case $parts in
apply)
    for label in "$@"; do edit_copy "$label"; done
    ;;
build*)
    need_toolchain
    for label in "$@"; do
        step "proving and building the wrong archive $label"
        build_wrong "$label"
    done
    ;;
esac
case $parts in
*compare)
    need_rust
    if [ ! -f "$build/librailcadence_c.a" ]; then
        step "proving the right archive, and building it (some minutes the first time)"
        build_archive
    fi
    # the right one gives no difference, though so few calls may not reach every outcome
    build_rust differential
    status=0
    "$rust/differential" $calls >/dev/null 2>&1 || status=$?
    case $status in
    0 | 3) ;;
    *) fail "the comparison ends with status $status for the right archive: 'differential $calls' says why" ;;
    esac
    for label in "$@"; do compare_wrong "$label"; done
    ;;
esac
