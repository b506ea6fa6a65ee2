#!/bin/sh
# The definitions that a reader of docs/PROMISES.md has to believe, and how many lines each file has: those that are not blank, a comment, or
# a name brought in. Files of specs/ that only inner functions cite (Inner) are not among them: no promise is stated with them.
cd "$(dirname "$0")/.." || exit 2

lines() {
    grep -cvE '^[[:space:]]*(--.*)?$|^(pub )?(use|mod) ' "$1"
}

all=0
part() {
    echo "$1"
    shift
    sum=0
    for file in "$@"; do
        case $file in */Lib.antt | */Inner.antt) continue ;; esac
        n=$(lines "$file")
        sum=$((sum + n))
        printf '%6d  %s\n' "$n" "$file"
    done
    all=$((all + sum))
    printf '%6d  together\n' "$sum"
}

part 'Numbers and places in bytes' crates/numbers/specs/*.antt crates/parts/specs/*.antt
part 'The wire' crates/wire/specs/*.antt crates/transmitter/specs/*.antt crates/receiver/specs/*.antt
part 'The wire, in the words of the standard' crates/promises/specs/Wire.antt crates/promises/specs/Calls.antt
part 'The chip' crates/bits/specs/*.antt crates/commands/specs/*.antt crates/registers/specs/*.antt crates/channels/specs/*.antt \
    crates/link/specs/*.antt crates/packets/specs/*.antt crates/state/specs/*.antt crates/chip/specs/*.antt
part 'The calls and the journal' crates/adapter/specs/*.antt crates/batch/specs/*.antt crates/journal/specs/*.antt
part 'The control room' crates/control_room/specs/*.antt
part 'Demand 3' crates/promises/specs/Runs.antt crates/promises/specs/Ours.antt
part 'A batch' crates/promises/specs/Batches.antt
part 'Two hundred steps' crates/promises/specs/Enlarging.antt
part 'The control room, and both ends' crates/promises/specs/ControlRoom.antt crates/promises/specs/Conversation.antt
part 'The table' crates/promises/specs/Table.antt crates/promises/specs/Text.antt
part 'The listing' crates/listing/specs/*.antt crates/player/specs/*.antt
part 'The exports' crates/sca/specs/*.antt
echo "$all in all"
