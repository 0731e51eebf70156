#!/bin/sh
# Runs what the compiler made of the proved code under valgrind, which checks every access to memory, and programs in C in
# builds with gcc's sanitizers. It takes a few minutes once the archive is built.
#   scripts/memcheck.sh [--seed N] [--calls N]   the words go to the comparison (default --seed 1 --calls 150000)
set -eu
root=$(cd "$(dirname "$0")/.." && pwd)
. "$root/scripts/steps.sh"

need valgrind "it checks every access to memory; on Debian 'apt-get install valgrind' installs it"
need_toolchain
need_rust
mkdir -p "$build"
[ $# -gt 0 ] || set -- --seed 1 --calls 150000
log=$build/memcheck.log
output=$build/memcheck.out
found=9

# checked COMMAND..: runs it under valgrind; ends with $found if there was an error
checked() { valgrind --error-exitcode=$found --log-file="$log" "$@"; }

# clean WHAT COMMAND..: runs it under valgrind, which must find nothing
clean() {
    what=$1
    shift
    status=0
    checked "$@" || status=$?
    [ "$status" = 0 ] || {
        cat "$log" >&2
        fail "$what ends with status $status, see above; $found is an error that valgrind found"
    }
    sed -n 's/.*ERROR SUMMARY/    ERROR SUMMARY/p' "$log" >&2
}

# compile SOURCE PROGRAM OPTION..: builds a program in C with the archive
compile() {
    source=$root/hosts/c/$1
    program=$build/$2
    shift 2
    gcc -std=c11 -g -Wall -Wextra -Wpedantic -Werror "$@" -o "$program" "$source" "$build/librailcadence_c.a" ||
        fail "$source does not build"
}

step "proving the C interface and the text program, and building them (some minutes the first time)"
build_archive
build_program

step "valgrind itself: a slice one element longer than its memory is found in every call"
compile overlong.c overlong
# overlong CALL SLICE..: each of these must be found in the call, and nothing where the memory is enough
overlong() {
    call=$1
    shift
    for slice in "$@"; do
        status=0
        checked "$build/overlong" "$call" "$slice" || status=$?
        [ "$status" = $found ] || fail "valgrind does not notice that $call goes beyond $slice"
        grep -q 'Invalid \(read\|write\)' "$log" || fail "valgrind reports something else of $call and $slice: see $log"
    done
    clean "$call with enough memory" "$build/overlong" "$call" exact
}
for engine in gcra token_bucket; do
    overlong ${engine}_acquire plans ids plan_numbers record
    overlong ${engine}_peek plans ids plan_numbers record
    overlong ${engine}_clear ids plan_numbers record
done

# as_expected NAME HOW: what was printed is what hosts/c/NAME.expected has
as_expected() { cmp "$output" "$root/hosts/c/$1.expected" || fail "$2 hosts/c/$1.c prints something else"; }

step "programs in C under valgrind: the example, several plans, tables in one block"
for name in example plans tables; do
    compile $name.c $name
    clean "hosts/c/$name.c" "$build/$name" >"$output"
    as_expected $name "under valgrind"
done

step "the same with gcc's address and undefined behaviour sanitizers, which must find nothing, and clears beyond a column, which they find"
for name in example plans tables; do
    compile $name.c ${name}_sanitized $sanitizers
    "$build/${name}_sanitized" >"$output" || fail "the sanitizers find an error in hosts/c/$name.c: see above"
    as_expected $name "with the sanitizers"
done
sanitizers_see_clears

step "the text program on examples/ under valgrind"
for text in "$root"/examples/*.tsv; do
    clean "the text program on $text" "$build/railcadence" <"$text" >"$output"
    cmp "$output" "${text%.tsv}.out" || fail "under valgrind the text program does not print ${text%.tsv}.out"
done

step "the comparison with guard words around every column, the newest moment and the answer, under valgrind: $*"
build_rust differential
clean "the comparison with guard words" "$rust/differential" "$@"

# build_exact PACKAGE: builds a comparison that lends blocks of exactly the lent length
build_exact() {
    cargo build --quiet --release --offline --features exact --target-dir "$build/exact" \
        --manifest-path "$root/hosts/rust/$1/Cargo.toml" || fail "the comparison hosts/rust/$1 does not build"
}

step "the comparison in blocks of exactly the lent length, under valgrind: $*"
build_exact differential
clean "the comparison in exact blocks" "$build/exact/release/differential" "$@"

step "texts through railcadence_transcribe in exact blocks, under valgrind: --seed 1 --cases 400"
build_exact text_differential
clean "the comparison of texts" "$build/exact/release/text_differential" "$build/railcadence" --seed 1 --cases 400

step "valgrind found no error: $(valgrind --version), $(gcc --version | head -n 1)"
