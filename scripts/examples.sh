#!/bin/sh
# Plays every listing of examples/ and compares the answers with NAME.out, and every example of docs/LISTING.md's table of numbers:
# a line 'ok ..' or 'FAIL ..' for each.
cd "$(dirname "$0")/.." || exit 2
. scripts/program.sh
program_ready bench || exit 1
got=$(mktemp) && rows=$(mktemp) || exit 2
trap 'rm -f "$got" "$rows"' EXIT
status=0
for listing in examples/*.txt; do
    if program_run bench <"$listing" >"$got" && cmp -s "$got" "${listing%.txt}.out"; then
        echo "ok   $listing"
    else
        echo "FAIL $listing" && status=1
    fi
done

# a row is '| answer | `line`, `line` | `answer`, `answer` | why |'
# shellcheck disable=SC2016
lines() { sed 's/^ *`//; s/` *$//; s/`, `/\n/g'; }
sed -n '/^## Every number/,/^## Worked/p' docs/LISTING.md | grep '^| [0-9]' >"$rows"
while IFS='|' read -r _ number input output _; do
    if [ "$(printf '%s\n' "$input" | lines | program_run bench)" = "$(printf '%s\n' "$output" | lines)" ]; then
        echo "ok   docs/LISTING.md, answer$number"
    else
        echo "FAIL docs/LISTING.md, answer$number:$input" && status=1
    fi
done <"$rows"
[ -s "$rows" ] || { echo "FAIL docs/LISTING.md has no examples" && status=1; }
exit "$status"
