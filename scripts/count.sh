# shellcheck shell=sh disable=SC2154
# Counts what passed and what failed. Sourced; $logs is a folder for logs.
passed=0 failed=0

good() { passed=$((passed + 1)) && echo "ok   $*"; }
bad() { failed=$((failed + 1)) && echo "FAIL $*"; }

# step NAME COMMAND..: a step that other tests need; it counts only where it fails, and then shows its log.
step() {
    step=$1
    shift
    "$@" >"$logs/step" 2>&1 && return
    bad "$step"
    tail -n 20 "$logs/step"
    return 1
}

# add NAME STATUS GOOD BAD: what a test program counted. Nothing counted is a failure, and so is a status that no failed
# test explains.
add() {
    passed=$((passed + $3)) failed=$((failed + $4))
    echo "     $1: $3 passed, $4 failed"
    if [ $(($3 + $4)) -eq 0 ]; then
        bad "$1: it ran no test (status $2)"
    elif [ "$2" -ne 0 ] && [ "$4" -eq 0 ]; then
        bad "$1: status $2"
    fi
}

# tally NAME COMMAND..: a program that writes a line 'ok ..' or 'FAIL ..' for each of its tests.
tally() {
    tallied=$1
    shift
    "$@" >"$logs/tally" 2>&1
    status=$?
    cut -c 1-1000 "$logs/tally"
    add "$tallied" "$status" "$(grep -c '^ok ' "$logs/tally")" "$(grep -c '^FAIL ' "$logs/tally")"
}
