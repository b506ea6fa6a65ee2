# shellcheck shell=sh disable=SC2154
# The bench program on random listings, beside the independent implementation. Sourced.

test_bench() {
    step "rt run in crates/bench" program_ready bench || return
    mkdir -p "$logs/listings"
    step "write listings" run "$built/events" --seed "${SEED:-1}" --listings "$logs/listings" || return
    differing=0 lines=0
    for listing in "$logs/listings"/*.in; do
        same_answers "$listing" || differing=$((differing + 1))
        lines=$((lines + $(wc -l <"$listing")))
    done
    set -- "$logs/listings"/*.in
    if [ "$differing" -eq 0 ]; then good "bench: $# listings, $lines lines, seed ${SEED:-1}"; else bad "bench: $differing of $# listings"; fi
}

# same_answers LISTING: shows the first line that is answered otherwise.
same_answers() {
    program_run bench <"$1" >"$logs/answers"
    cmp -s "${1%.in}.out" "$logs/answers" && return
    at=$(cmp "${1%.in}.out" "$logs/answers" | sed 's/.* //')
    for file in "$1" "${1%.in}.out" "$logs/answers"; do
        echo "     line ${at:-?} of $(basename "$file"): $(sed -n "${at:-1}p" "$file" | cut -c 1-200)"
    done
    return 1
}
