# shellcheck shell=sh disable=SC2154
# Tests of the archive that C and Rust programs link. Sourced.

test_outside() {
    step "a toolchain for x86-64" toolchain_ready || return
    step "rt lib in crates/sca_c" archive_build || return
    step "build the reference" build_reference && test_reference
    test_c link
    test_c adapter
    test_c room
    test_c guards
    test_stack
    test_symbols
    step "build the crate" build_crate || return
    step "build the Rust tests" build_rust_tests || return
    tally "vectors" run "$built/vectors"
    tally "comparison" run "$built/compare" --seed "${SEED:-1}"
    tally "faults in the comparison" run "$built/compare" --seed "${SEED:-1}" --break
    tally "events" run "$built/events" --seed "${SEED:-1}"
    tally "faults in the events" run "$built/events" --seed "${SEED:-1}" --break
    tally "both ends" run "$built/joined" --seed "${SEED:-1}"
    tally "faults in both ends" run "$built/joined" --seed "${SEED:-1}" --break
    test_linked
    test_bench
    tally "examples" scripts/examples.sh
    tally "bad input" scripts/bad_input.sh
}

# test_c NAME: a C program over include/sca.h and the archive.
test_c() {
    step "build tests/c/$1.c" c_build "$built/c_$1" "tests/c/$1.c" "$archive" && tally "C, $1" run "$built/c_$1"
}

# How much stack each call takes, by painting it and by its machine code, against the table of docs/STACK.md.
test_stack() {
    step "what the code takes of the stack" bounds_of_stack || return
    step "build tests/c/stack.c" build_stack && tally "C, stack" run "$built/c_stack" docs/STACK.md "$logs/bounds"
}
build_stack() { c_build "$built/c_stack" tests/c/stack.c "$archive" -Wl,-z,now; }
bounds_of_stack() { c_code "$archive" >"$logs/code" && awk -f scripts/deepest.awk "$logs/code" >"$logs/bounds"; }

# The archive has the calls that the header declares and no other name, and needs of the C library what the header says.
test_symbols() {
    c_names -g --defined-only "$archive" | sed -n 's/^.* T //p' | sort >"$logs/has"
    sed -n 's/^uint64_t \(sca_[a-z0-9_]*\)(.*/\1/p' include/sca.h | sort >"$logs/declared"
    if [ -s "$logs/has" ] && diff "$logs/declared" "$logs/has"; then good "the header's calls"; else bad "the header's calls"; fi
    needs=$(c_names -u "$archive" | sed -n 's/^ *U //p' | sort -u | tr '\n' ' ')
    if [ "$needs" = "memcpy memset " ]; then good "memcpy and memset are all that the archive needs"; else bad "the archive needs $needs"; fi
}

build_reference() { rust_build --crate-type rlib --crate-name reference tests/reference/src/lib.rs; }

# The reference's own tests.
test_reference() {
    for file in tests/reference/tests/*.rs; do
        test_harness "reference" "$file" reference
    done
}

# test_harness NAME FILE CRATE: tests over a crate, as Rust's test harness counts them.
test_harness() {
    harness=$(basename "$2" .rs)
    step "build $2" rust_build --test --crate-name "$1_$harness" --extern "$3" "$2" || return
    run "$built/$1_$harness" >"$logs/harness" 2>&1
    status=$?
    counts=$(sed -n 's/^test result: .* \([0-9]*\) passed; \([0-9]*\) failed.*/\1 \2/p' "$logs/harness")
    [ "$status" -eq 0 ] || tail -n 40 "$logs/harness"
    # shellcheck disable=SC2086
    add "$1, $harness" "$status" ${counts:-0 0}
}

build_crate() { rust_build --crate-type rlib --crate-name sca -D warnings -L native=target/staticlib rust/src/lib.rs; }

build_rust_tests() {
    rust_build --crate-name vectors --extern sca tests/vectors.rs &&
        rust_build --crate-name compare --extern sca --extern reference tests/compare/main.rs &&
        rust_build --crate-name events --extern sca --extern reference tests/events/main.rs &&
        rust_build --crate-name joined --extern sca --extern reference tests/joined/main.rs
}
