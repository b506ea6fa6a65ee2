# shellcheck shell=sh
# What rt builds of proved crates: the programs, and the archive that C and Rust programs link. Built where they are missing or older than
# their source. Sourced, in the repository's folder.

# The archive, under the name by which it is linked. rt builds it in crates/sca_c/out/.
archive=target/staticlib/libsca.a

# is_new FILE: it is there, and no source of the crates is newer. What rt makes in their folders out/ is no source.
is_new() {
    [ -f "$1" ] && [ -z "$(find crates crates.txt -path 'crates/*/out' -prune -o -type f -newer "$1" -print | head -n 1)" ]
}

# program_ready NAME: while it builds, standard error has the crates as they are proved; rt's own account only where it fails.
program_ready() {
    if is_new "crates/$1/out/$1"; then return 0; fi
    command -v rt >/dev/null || { echo "rt is not on the PATH: it comes with the Rattle kit" >&2 && return 1; }
    account=$(mktemp) || return
    # rt runs what it built, here on no input. The status comes as the last line, since a pipe's own is that of its last command.
    { (cd "crates/$1" && rt run </dev/null 2>&1) && echo 0 || echo $?; } | tee "$account" | show_crates "$(crates_under "$1")" >&2
    status_of_build=$(tail -n 1 "$account")
    # rt leaves a program as it is where a file was written anew with the same text
    if [ "$status_of_build" = 0 ]; then touch "crates/$1/out/$1"; else sed '$d' "$account" >&2; fi
    rm -f "$account"
    [ "$status_of_build" = 0 ]
}

# crates_under NAME: how many crates it is made of, itself among them. crates.txt lists them bottom up.
crates_under() {
    awk -F: -v top="$1" '
        !/^#/ { name[++rows] = $1; under[$1] = $2 }
        END {
            needed[top] = 1
            for (row = rows; row > 0; row--) if (name[row] in needed) {
                count++
                split(under[name[row]], parts, " ")
                for (part in parts) needed[parts[part]] = 1
            }
            print count
        }' crates.txt
}

# show_crates ALL: of rt's account on standard input, a line for each crate that it proves. Those that it has proved before have none.
show_crates() {
    echo "proving $1 crates, once; it takes some minutes"
    count=0 crate=''
    while IFS= read -r line; do
        case $line in
        "crate "*": modules "*) crate=${line#crate } && crate=${crate%%:*} ;;
        "logic=proved "*)
            count=$((count + 1))
            echo "proved $count of $1: $crate"
            ;;
        esac
    done
}

# program_run NAME: standard input and output are the program's.
program_run() { "crates/$1/out/$1"; }

# archive_build: proves what has changed, builds the archive and leaves it where it is linked from.
archive_build() {
    (cd crates/sca_c && rt lib) && install -d "$(dirname "$archive")" && install -m 644 crates/sca_c/out/libsca_c.a "$archive"
}
