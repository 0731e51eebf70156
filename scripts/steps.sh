# What ./run, ./test and ./bench share; they source it with `root` set to the repository's root.
# step WORDS: says where the work is. fail WORDS: says what went wrong, and stops.
started=$(date +%s)
step() { printf '[%4ds] %s\n' "$(($(date +%s) - started))" "$*" >&2; }
fail() {
    printf '%s: %s\n' "$(basename "$0")" "$*" >&2
    exit 1
}

# need TOOL WHY: stops where a tool is missing
need() { command -v "$1" >/dev/null 2>&1 || fail "the tool '$1' is missing from PATH: $2"; }

need_toolchain() { need rt "it is the Rattle toolchain's command, which proves and builds the crates"; }
need_c() { need gcc "it builds the examples in C, and cargo links with it; ar, which puts the archive together, comes with it"; }
need_rust() {
    need cargo "it builds the second implementation (no crate from a registry is needed)"
    need_c
}

# what cargo and gcc build; what rt builds stands in crates/NAME/out, which rt ci empties
build=$root/build
export CARGO_TARGET_DIR=$build/cargo

# the proved archive that C can call, an object for each crate that exports to C, kept where rt ci does not remove it. rt ci proves these
# crates and builds no archive of them; rt lib does, and proves again what it finds no kept work of
export RAILCADENCE_LIB=$build
build_archive() {
    objects=$build/objects
    rm -rf "$objects"
    mkdir -p "$objects"
    for crate in c_gcra c_token_bucket c_http c_text; do
        (cd "$root/crates/$crate" && rt lib && cd "$objects" && ar x "$root/crates/$crate/out/lib$crate.a") >"$build/archive.log" 2>&1 || {
            tail -n 20 "$build/archive.log" >&2
            fail "the crate $crate could not be proved and built for the archive: the last lines of build/archive.log are above"
        }
    done
    rm -f "$build/librailcadence_c.a"
    ar rcsD "$build/librailcadence_c.a" "$objects"/*.o || fail "no archive can be made from build/objects"
}

# the proved text program, kept where rt ci does not remove it; what has not changed since it was proved is not proved again. rt run
# builds it and runs it, here on no input
build_program() {
    (cd "$root/crates/railcadence" && rt run </dev/null 2>&1 >/dev/null) >"$build/program.log" || {
        tail -n 20 "$build/program.log" >&2
        fail "the text program could not be proved and built: the last lines of build/program.log are above"
    }
    keep_program
}

# keeps the program that the last rt run, or rt ci, has left
keep_program() {
    # a program that is running cannot be written over, only replaced
    cp "$root/crates/railcadence/out/railcadence" "$build/railcadence.new"
    mv "$build/railcadence.new" "$build/railcadence"
}

# build_rust FOLDER: builds the package in hosts/rust/FOLDER; its programs are then in $rust
rust=$CARGO_TARGET_DIR/release
build_rust() {
    cargo build --quiet --release --offline --manifest-path "$root/hosts/rust/$1/Cargo.toml" ||
        fail "the package hosts/rust/$1 does not build"
}

# build_c NAME: builds hosts/c/NAME.c with the archive. build_cpp NAME: builds it as C++, as NAME_cpp
warnings="-O2 -Wall -Wextra -Wpedantic -Werror"
build_c() {
    gcc -std=c11 $warnings -o "$build/$1" "$root/hosts/c/$1.c" "$build/librailcadence_c.a" || fail "hosts/c/$1.c does not build"
}
build_cpp() {
    g++ -std=c++11 $warnings -o "$build/$1_cpp" -x c++ "$root/hosts/c/$1.c" -x none "$build/librailcadence_c.a" ||
        fail "hosts/c/$1.c does not build as C++"
}

# gcc's sanitizers. sanitizers_see_clears: they must report each clear whose ids, plan numbers or last column is lent one element longer than
# its memory, which they see by the archive's memset
sanitizers="-fsanitize=address,undefined -fno-sanitize-recover=all"
sanitizers_see_clears() {
    program=$build/overlong_sanitized
    gcc -std=c11 -g $sanitizers -o "$program" "$root/hosts/c/overlong.c" "$build/librailcadence_c.a" ||
        fail "hosts/c/overlong.c does not build with the sanitizers"
    for call in gcra_clear token_bucket_clear; do
        "$program" $call exact || fail "the sanitizers find an error in $call with enough memory: see above"
        for slice in ids plan_numbers record; do
            if "$program" $call $slice 2>"$build/overlong.out"; then fail "the sanitizers do not notice that $call goes beyond $slice"; fi
            grep -q heap-buffer-overflow "$build/overlong.out" ||
                fail "the sanitizers report something else of $call and $slice: see build/overlong.out"
        done
    done
}

# the archive as a shared library, for Python
build_shared() {
    gcc -shared -o "$build/librailcadence.so" -Wl,--whole-archive "$build/librailcadence_c.a" -Wl,--no-whole-archive ||
        fail "no shared library can be made from the archive"
}

# prints FILE COMMAND...: runs the command, which must end well and print what FILE has
prints() {
    expected=$1
    shift
    "$@" >"$build/printed" || fail "'$*' ends with status $?"
    cmp "$build/printed" "$expected" || fail "'$*' does not print $expected"
}

# notices PROGRAM WORDS..: runs a comparison with each deliberate fault that it lists, as many at a time as there are processors; it must
# end with status 1 each time
notices() {
    faults=$("$1" --spoil list | cut -d' ' -f1)
    [ -n "$faults" ] || fail "$1 lists no faults, so nothing was tried"
    unnoticed=$(printf '%s\n' "$faults" | xargs -P "$(nproc)" -I FAULT sh -c '
        fault=$1
        shift
        status=0
        "$@" --spoil "$fault" >/dev/null 2>&1 || status=$?
        [ "$status" = 1 ] || printf " %s" "$fault"' fault FAULT "$@")
    [ -z "$unnoticed" ] || fail "these faults go unnoticed, so the comparison shows nothing there:$unnoticed"
}

# start PART: runs a part of the tests in the background, into its log. finish PART: waits for it, and shows the log
start() {
    ("$1") >"$build/$1.log" 2>&1 &
    eval "job_$1=$!"
}
finish() {
    eval "job=\$job_$1"
    status=0
    wait "$job" || status=$?
    cat "$build/$1.log"
    [ "$status" = 0 ] || fail "the part '$1' of the tests fails: see above"
}
