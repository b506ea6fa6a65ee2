# shellcheck shell=sh disable=SC2154
# The library as others link it: installed, through the crate of rust/, and in the examples. Sourced.

test_linked() {
    test_crate
    test_documentation
    same_output "the example in Rust" examples/job.out "$built/job" build_rust_example
    same_output "the example in C, over the installed library" examples/job.out "$built/job_c" build_c_example
    same_output "the control room in Rust" examples/control_room.out "$built/control_room" build_rust_room
    same_output "the control room in C, over the installed library" examples/control_room.out "$built/control_room_c" build_c_room
}

test_crate() {
    for file in rust/tests/*.rs; do
        test_harness "crate" "$file" sca
    done
}

# The example that the crate's documentation has in it: rust/src/lib.rs takes it from this file.
test_documentation() {
    step "build: the documentation's example" rust_build --crate-name connect --extern sca rust/examples/connect.rs || return
    if run "$built/connect" >"$logs/output" 2>&1; then good "the documentation's example"; else
        bad "the documentation's example"
        tail -n 20 "$logs/output"
    fi
}

build_rust_example() { rust_build --crate-name job --extern sca rust/examples/job.rs; }
build_rust_room() { rust_build --crate-name control_room --extern sca rust/examples/control_room.rs; }
build_c_example() { build_installed job; }
build_c_room() { build_installed control_room; }

# build_installed NAME: an example of examples/, over the library installed under a folder of its own, with what the pkg-config file says and nothing
# else of the repository.
build_installed() {
    prefix=$logs/prefix
    scripts/install.sh "$prefix" || return
    eval "flags=\"$(sed -n 's/^Cflags: //p' "$prefix/lib/pkgconfig/sca.pc")\""
    eval "libraries=\"$(sed -n 's/^Libs: //p' "$prefix/lib/pkgconfig/sca.pc")\""
    # shellcheck disable=SC2086
    "$cc" -std=c99 -Wall -Wextra -Werror -pedantic $flags -o "$built/$1_c" "examples/$1.c" $libraries
}

# same_output NAME EXPECTED PROGRAM BUILD: builds a program, runs it, and compares what it prints with a file.
same_output() {
    step "build: $1" "$4" || return
    if run "$3" >"$logs/output" 2>&1 && diff "$2" "$logs/output"; then good "$1"; else bad "$1"; fi
}
