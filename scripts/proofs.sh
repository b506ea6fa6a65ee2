# shellcheck shell=sh disable=SC2154
# What rt proves and runs. Sourced.

test_proofs() {
    { rt ci 2>&1 && echo 0 >"$logs/status" || echo $? >"$logs/status"; } | tee "$logs/ci" | grep --line-buffered '^rt:'
    counts=$(sed -n '$s/^\([0-9]*\) passed, \([0-9]*\) failed$/\1 \2/p' "$logs/ci")
    status=$(cat "$logs/status")
    [ "$status" -eq 0 ] || tail -n 40 "$logs/ci"
    # shellcheck disable=SC2086
    add "rt ci" "$status" ${counts:-0 0}
    no_edit_is_bad
    each_edit_shows_a_fact
}

# An edit that cannot be applied, compiled or read shows nothing. rt ci passes it, and counts it in its line 'rt: ok'.
no_edit_is_bad() {
    bad_edits=$(sed -n 's/^rt: ok;.* must-fail edits: [^;]*, \([0-9][0-9]*\) bad\(;.*\)\{0,1\}$/\1/p' "$logs/ci")
    [ "${bad_edits:-0}" -eq 0 ] || bad "must-fail edits: $bad_edits bad"
}

# A must-fail edit shows something only where a fact was refused. Where its first error says that the proof no longer fits
# the code, any edit of that shape would be refused, a right one too. rt says so itself where a proof names what the edit took away.
each_edit_shows_a_fact() {
    unfit='only because a proof file names|which was rejected|has no field|that can be named from here'
    unfit=$unfit'|expected type .(tie\.Need|[^ ]*Lts\.Closed)|on the face .κs|no occurrence of the path'
    for edit in crates/*/must-fail/*.edit; do
        [ -f "$edit" ] || continue
        label=$(basename "$edit") crate=$(basename "$(dirname "$(dirname "$edit")")")
        said=$(sed -n "s|^rt: must-fail $crate/$label: ||p" "$logs/ci")
        case $said in
        'refused, as it must be'*)
            if echo "$said" | grep -qE "$unfit"; then
                bad "$edit: refused only because the proof no longer fits the code"
                echo "$said" | cut -c 1-300
            fi
            ;;
        # rt ci counts it among the failed
        'NOT REFUSED'* | 'NOT TRIED'*) ;;
        'BAD EDIT'*) bad "$edit: $(echo "$said" | cut -c 1-300)" ;;
        *) bad "$edit: it was not tried" ;;
        esac
    done
}
