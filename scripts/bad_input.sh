#!/bin/sh
# Input that no listing should have, and ends that no run should meet: a line 'ok ..' or 'FAIL ..' for each. LONG=N sets the bytes of
# the long line, a gigabyte as it stands.
cd "$(dirname "$0")/.." || exit 2
. scripts/program.sh
program_ready bench || exit 1
got=$(mktemp) && said=$(mktemp) && pipes=$(mktemp -d) || exit 2
trap 'rm -rf "$got" "$said" "$pipes"' EXIT
status=0
good() { echo "ok   $*"; }
bad() { echo "FAIL $*" && status=1; }

# answers NAME EXPECTED: standard input gives just these answers; EXPECTED as printf takes it.
answers() {
    # shellcheck disable=SC2059
    if program_run bench >"$got" && printf "$2" | cmp -s - "$got"; then good "$1"; else bad "$1"; fi
}
characters() { head -c "$1" /dev/zero | tr '\0' "$2"; }

printf '' | answers "no input" ''
printf '\n' | answers "an empty line" '10 0\n'
printf '\200\n\377\376\n' | answers "bytes over 127" '10 0\n10 0\n'
printf 'U\000\n\000\nU\n' | answers "NUL" '10 0\n10 0\n17 1\n'
printf 'U\r\nU\r' | answers "CR" '10 0\n10 0\n'
printf 'F\t0\t0000\n\tU\n' | answers "tabs" '10 0\n10 0\n'
printf 'F  0 0000\nF 0  0000\nP 00000000  0\n U\nU \n' | answers "double spaces and spaces at the ends" '10 0\n10 0\n10 0\n10 0\n10 0\n'
printf 'U\nU' | answers "no final LF" '17 1\n17 2\n'
{ characters 80 x && echo && characters 81 x && echo && echo U; } | answers "80 and 81 characters" '10 0\n10 0\n17 1\n'
{ printf 'F 0 ' && characters 76 0 && echo && printf 'F 0 ' && characters 77 0; } | answers "a body of 38 bytes, and one character more" '2 0\n10 0\n'
{ echo U && characters "${LONG:-1000000000}" U && printf '\nU\n'; } | answers "a line of ${LONG:-1000000000} bytes" '17 1\n10 1\n17 2\n'
characters "${LONG:-1000000000}" '\n' | head -c 1000000 | program_run bench | sort | uniq -c >"$got"
if [ "$(awk '{ print $1, $2, $3 }' "$got")" = "1000000 10 0" ]; then good "a million empty lines"; else bad "a million empty lines"; fi

# each wrong shape of an I2C line is 10; a start is open around them, and still ends
wrong_i2c() {
    printf 'I\nI \nI 03\nI 03 \nI 03 1\nI 03 1 \nI 03 1 0 \n I 03 1 0\nI  03 1 0\nI 03  1 0\nI 03 1  0\nI 03 1 0  99\nI 03 1 0 99 \n'
    printf 'I 3 1 0\nI 003 1 0\nI 0x03 1 0\nI 0g 1 0\nI 03 2 0\nI 03 1 2\nI 03 9 9\nI 03 a 0\nI 03 -1 0\nI 03 01 0\nI 03 1 00\n'
    printf 'I 03 1 0 9\nI 03 1 0 999\nI 03 1 0 9g\nI 03 1 0 99 88\nI03 1 0\nI 031 0\nI 03 10\nI 0310\nI 03 1 099\ni 03 1 0\n'
    printf 'I\t03 1 0\nI 03,1,0\nI 03 1 0\r\nI 03 1 0\000\nI 03 1 0 99\200\n'
    printf 'I 03 1 0 ' && characters 71 9 && printf '\nI 03 1 0 ' && characters 72 9 && echo
}
unreadable=$(wrong_i2c | LC_ALL=C sed 's/.*/10 2/')
{ printf 'F 0 00000100040200080000\nF 0 00020203048600500000\n' && wrong_i2c && printf 'I 03 1 0 99\nI 03 1 0\n'; } |
    answers "every wrong shape of an I2C line" "0 1 0 00200100000200000000\n17 2\n$unreadable\n0 3 0 00420203000499040000\n15 4\n"
{ printf 'I 03 1 0 ' && characters 32 a && printf '\nI 12 0 1 ' && characters 34 A && printf '\nI 12 0 1 ' && characters 70 A && echo; } |
    answers "an I2C line with 16 bytes, with 17 and with 35" '15 1\n3 1\n3 1\n'
printf 'I 02 1 0\nI 13 1 0\nI fF 1 0\nI 00 0 0 99\nI 0A 0 1\n' | answers "I2C lines of other channels" '3 0\n3 0\n3 0\n3 0\n15 1\n'

# the answers do not hang on how the input is cut
program_run bench <crates/bench/stdin >"$said"
for size in 1 7 4096; do
    dd bs="$size" status=none <crates/bench/stdin | program_run bench >"$got"
    if cmp -s "$got" "$said"; then good "written $size bytes at a time"; else bad "written $size bytes at a time"; fi
done

# another program talks to it line by line: each answer comes before the next line is sent
mkfifo "$pipes/in" "$pipes/out" || exit 2
program_run bench <"$pipes/in" >"$pipes/out" &
exec 3>"$pipes/in" 4<"$pipes/out"
talk=''
for line in U U B X; do
    echo "$line" >&3
    IFS= read -r answer <&4 && talk="$talk$answer;"
done
exec 3>&- 4<&-
wait
if [ "$talk" = "17 1;17 2;17 1;10 1;" ]; then good "a talk line by line"; else bad "a talk line by line: $talk"; fi

# a read or a write that fails
program_run bench </ >"$got" 2>"$said"
if [ ! -s "$got" ] && grep -q 'standard input cannot be read' "$said"; then good "a read that fails"; else bad "a read that fails"; fi
echo U | program_run bench 2>"$said" >/dev/full
if grep -q 'standard output cannot be written' "$said"; then good "a write that fails"; else bad "a write that fails"; fi
exit "$status"
