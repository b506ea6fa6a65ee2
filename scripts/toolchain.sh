# shellcheck shell=sh disable=SC2154
# The archive is for x86-64 on every machine. This finds a C and a Rust compiler for it and the way to run what they build,
# and installs from Debian what is missing. Sourced. It sets
#   cc, rustc   the compilers; rustc is used as in rust_build
#   emulator    the command in front of a built program: none on x86-64
#   built       the folder for what is built
built=target/outside
probe=$built/probe

if [ "$(uname -m)" = x86_64 ]; then
    cc=cc nm=nm objdump=objdump emulator=''
    c_packages='gcc libc6-dev' rust_packages='rustc gcc libc6-dev'
else
    cc=x86_64-linux-gnu-gcc nm=x86_64-linux-gnu-nm objdump=x86_64-linux-gnu-objdump emulator=qemu-x86_64
    c_packages='gcc-x86-64-linux-gnu libc6-dev-amd64-cross qemu-user libc6:amd64'
    rust_packages="$c_packages rustc libstd-rust-dev:amd64 libgcc-s1:amd64"
fi
rustc=rustc

as_root() { if [ "$(id -u)" -eq 0 ]; then "$@"; else sudo "$@"; fi; }

# from_debian PACKAGE..: a source of packages that cannot be read is no failure as long as the others have what is asked for.
from_debian() {
    [ -z "$emulator" ] || as_root dpkg --add-architecture amd64
    as_root apt-get -q update || echo "apt-get update: status $?"
    as_root env DEBIAN_FRONTEND=noninteractive apt-get -q -y --no-install-recommends install "$@"
}

# run PROGRAM WORD..
run() { ${emulator:+"$emulator"} "$@"; }

# c_build OUT FILE..
c_build() {
    out=$1
    shift
    "$cc" -std=c99 -O2 -Wall -Wextra -Werror -pedantic -Iinclude -o "$out" "$@"
}

# c_names WORD..: nm, for what was built
c_names() { "$nm" "$@"; }

# c_code FILE: its machine code as text
c_code() { LC_ALL=C "$objdump" -dr --no-show-raw-insn "$1"; }

# rust_build WORD..: rustc for x86-64, with the libraries that were built before at hand.
rust_build() {
    "$rustc" --edition 2021 -C opt-level=3 --target x86_64-unknown-linux-gnu -C "linker=$cc" -L "$built" --out-dir "$built" "$@"
}

# Whether a program of one line can be built and run.
c_works() {
    echo 'int main(void) { return 0; }' >"$probe.c" && c_build "$probe" "$probe.c" && c_code "$probe" >/dev/null && run "$probe"
}
rust_works() {
    echo 'fn main() {}' >"$probe.rs" && rust_build --crate-name probe "$probe.rs" && run "$probe"
}

# A compiler of the machine that works is taken as it is; else Debian's, by its path, since another may stand before it.
c_ready() {
    # shellcheck disable=SC2086
    c_works >/dev/null 2>&1 || { from_debian $c_packages && c_works; }
}
rust_ready() {
    # shellcheck disable=SC2086
    rust_works >/dev/null 2>&1 || { rustc=/usr/bin/rustc && from_debian $rust_packages && rust_works; }
}
toolchain_ready() { mkdir -p "$built" && c_ready && rust_ready; }
