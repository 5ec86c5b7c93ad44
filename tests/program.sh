#!/usr/bin/env bash
# Tests of the desk program by ./run, and of ./run itself.
# Writes to a folder of its own outside the repository, which is removed at the end. Builds the program first where it is missing or old.
set -u
cd "$(dirname "$0")/.." || exit 2
. tests/shared.sh
work_outside program

# pack NAME: the text on standard input, as the message file NAME.
pack() {
    ./desk pack - -o "$work/$1" || fail "pack of $1"
}

OPEN='open quarters=1 first=10 clearing=30 correction=150 T=4 1=1 2=2 others=3'

# ---- the desk

desk_on_examples() {
    expect 'the example of document 01' 0 ./run examples/example.msg <<END
1 0
2 0
3 0
4 14
G 1 1 1 1000
T 1 1 1000
G 2 1 1 1000
T 2 1 1000
S 1 1 7 2
S 2 1 7 2
END
    expect 'the sample month' 0 ./run <<END
1 0
2 0
3 0
4 0
5 0
6 0
7 0
8 0
9 0
10 0
11 0
12 0
13 0
G 1 1 1 11000
G 1 1 2 30200
G 1 1 4 300
G 1 1 5 50000
G 1 1 6 8500
T 1 1 100000
G 1 2 1 7000
G 1 2 2 19900
G 1 2 4 -100
G 1 2 5 45000
G 1 2 6 8200
T 1 2 80000
G 2 1 1 11000
G 2 1 2 30200
G 2 1 4 300
G 2 1 5 50000
G 2 1 6 8500
T 2 1 100000
G 2 2 1 7000
G 2 2 2 19900
G 2 2 4 -100
G 2 2 5 45000
G 2 2 6 8200
T 2 2 80000
S 1 1 1 2
S 1 2 1 2
S 1 3 1 2
S 1 4 1 2
S 1 5 1 2
S 1 6 1 2
S 2 1 1 2
S 2 2 1 2
S 2 3 1 2
S 2 4 1 2
S 2 5 1 2
S 2 6 1 2
END
    expect 'an empty file' 0 ./run examples/empty.msg <<END
! run: examples/empty.msg is empty: it has no calls
END
    expect 'a file on standard input' 0 sh -c './run - <examples/kind.msg' <<END
1 0
2 0
F 33 29
END
}

desk_on_damaged_files() {
    expect '31, after calls' 0 ./run examples/cut.msg <<END
1 0
2 0
3 0
F 31 36
END
    expect '32, at the start' 0 ./run examples/longer.msg <<END
F 32 0
END
    expect '32, after a call' 0 ./run examples/ninth.msg <<END
1 0
F 32 23
END
    expect '33, after calls' 0 ./run examples/kind.msg <<END
1 0
2 0
F 33 29
END
    expect '34, after calls' 0 ./run examples/count.msg <<END
1 0
2 0
F 34 29
END
}

desk_on_openings() {
    pack nine.msg <<END
open quarters=9 first=10 clearing=30 correction=150 T=4 1=1 2=2 others=3
activate point=1 kind=1 area=1 partner=0 day=0
END
    expect 'nine quarter hours: 4, and no figures' 0 ./run "$work/nine.msg" <<END
1 4
2 1
END
    pack eight.msg <<END
open quarters=8 first=10 clearing=30 correction=150 T=4 1=1 2=2 others=3
open quarters=9 first=10 clearing=30 correction=150 T=4 1=1 2=2 others=3
END
    {
        printf '1 0\n2 6\n'
        for run in 1 2; do
            for quarter in 1 2 3 4 5 6 7 8; do
                echo "T $run $quarter 0"
            done
        done
    } >"$work/eight"
    expect 'eight quarter hours, and a second opening' 0 ./run "$work/eight.msg" <"$work/eight"
    pack huge.msg <<END
open quarters=9223372036854775807 first=10 clearing=30 correction=150 others=3
open quarters=0 first=10 clearing=30 correction=150 others=3
END
    expect 'quarter hours far out of range' 0 ./run "$work/huge.msg" <<END
1 4
2 4
END
}

# The runs differ where run 2 has a version of its own.
desk_on_figures() {
    pack negative.msg <<END
$OPEN
activate point=1 kind=2 area=1 partner=5 day=0
submit point=1 version=1 day=2 energies=-1000000000000
submit point=1 version=2 day=40 energies=-7
notice point=1 version=2 verdict=1 day=41
close run=1 day=42
issue run=1 day=43
END
    expect 'negative figures, and a version of run 2' 0 ./run "$work/negative.msg" <<END
1 0
2 0
3 0
4 0
5 0
6 0
7 0
G 1 1 1 1000000000000
G 1 1 5 -1000000000000
T 1 1 0
G 2 1 1 7
G 2 1 5 -7
T 2 1 0
S 1 1 1 3
S 2 1 2 4
END
    pack outside.msg <<END
$OPEN
activate point=256 kind=1 area=16 partner=0 day=0
assign area=16 group=64 day=1
submit point=256 version=99999999999999 day=2 energies=-1000000000000
END
    expect 'the last point, area and group, below 0' 0 ./run "$work/outside.msg" <<END
1 0
2 0
3 0
4 0
G 1 1 64 -1000000000000
T 1 1 -1000000000000
G 2 1 64 -1000000000000
T 2 1 -1000000000000
S 1 256 99999999999999 2
S 2 256 99999999999999 2
END
    pack answers.msg <<END
submit point=1 version=1 day=2 energies=1
$OPEN
activate point=0 kind=1 area=1 partner=0 day=0
activate point=1 kind=1 area=1 partner=0 day=0
activate point=1 kind=2 area=1 partner=1 day=0
activate point=2 kind=1 area=1 partner=0 day=0
submit point=1 version=1 day=1 energies=1
deactivate point=2 day=2
submit point=1 version=1 day=2 energies=none
close run=2 day=151
issue run=2 day=151
END
    expect 'refused calls' 0 ./run "$work/answers.msg" <<END
1 1
2 0
3 3
4 0
5 21
6 22
7 13
8 12
9 3
10 29
11 38
T 1 1 0
T 2 1 0
END
}

# Close and issue: byte 8 is a call, 0, 9 and 10 are none; the answers of both, and the order in which they are checked.
desk_on_acts() {
    local byte
    head -c 23 examples/example.msg >"$work/open.msg"
    for byte in 00 09 0a; do
        { cat "$work/open.msg" && repeat "${byte}011f" 1; } >"$work/byte.msg"
        expect "byte $byte is no call" 0 ./run "$work/byte.msg" <<END
1 0
F 33 23
END
    done
    { cat "$work/open.msg" && repeat 08011f 1; } >"$work/byte.msg"
    expect 'byte 08 is an issue' 0 ./run "$work/byte.msg" <<END
1 0
2 38
T 1 1 0
T 2 1 0
END
    pack acts.msg <<END
$OPEN
issue run=3 day=401
issue run=1 day=0
close run=1 day=30
close run=2 day=151
close run=1 day=31
issue run=1 day=30
issue run=2 day=31
close run=1 day=31
close run=2 day=150
close run=2 day=151
issue run=2 day=151
issue run=1 day=152
issue run=2 day=151
issue run=2 day=152
issue run=1 day=152
close run=2 day=152
END
    expect 'closes and issues' 0 ./run "$work/acts.msg" <<END
1 0
2 3
3 38
4 27
5 29
6 0
7 5
8 38
9 28
10 27
11 0
12 0
13 0
14 5
15 39
16 39
17 28
T 1 1 0
T 2 1 0
END
}

# A notice is for the point's highest version: 37 on a lower one, 24 where there is none of that number, 25 where it is no check data.
desk_on_notices() {
    pack notices.msg <<END
$OPEN
activate point=1 kind=1 area=1 partner=0 day=0
submit point=1 version=1 day=2 energies=1
submit point=1 version=2 day=11 energies=2
submit point=1 version=4 day=12 energies=4
notice point=1 version=1 verdict=0 day=40
notice point=1 version=2 verdict=1 day=40
notice point=1 version=3 verdict=1 day=40
notice point=1 version=4 verdict=0 day=12
notice point=1 version=4 verdict=1 day=30
notice point=1 version=4 verdict=1 day=30
notice point=1 version=2 verdict=1 day=30
END
    expect 'notices on the highest version and on others' 0 ./run "$work/notices.msg" <<END
1 0
2 0
3 0
4 0
5 0
6 37
7 37
8 24
9 0
10 0
11 25
12 37
G 1 1 1 4
T 1 1 4
G 2 1 1 4
T 2 1 4
S 1 1 4 2
S 2 1 4 2
END
}

# What the runs select, with its status, before and after each close and issue. Point 3 is activated first; point 4 has check data.
desk_on_statuses() {
    cat >"$work/corrected.calls" <<END
$OPEN
activate point=3 kind=3 area=1 partner=0 day=0
activate point=1 kind=1 area=1 partner=0 day=0
activate point=2 kind=2 area=1 partner=5 day=0
activate point=4 kind=5 area=1 partner=0 day=0
submit point=1 version=7 day=2 energies=1000
submit point=2 version=1 day=2 energies=10
submit point=2 version=2 day=11 energies=20
submit point=3 version=1 day=11 energies=5
submit point=4 version=1 day=11 energies=6
notice point=2 version=2 verdict=1 day=31
notice point=3 version=1 verdict=1 day=31
END
    cat >"$work/figures" <<END
G 1 1 1 990
G 1 1 5 10
T 1 1 1000
G 2 1 1 975
G 2 1 4 5
G 2 1 5 20
T 2 1 1000
END
    statuses 'settlement data, and correction settlement data' 2 4 </dev/null
    statuses 'both runs closed: the same statuses' 2 4 <<END
close run=1 day=31
close run=2 day=151
END
    statuses 'run 1 issued, and run 2 with it where it has no own' 3 4 <<END
close run=1 day=31
issue run=1 day=31
END
    statuses 'run 2 issued before run 1' 2 5 <<END
close run=1 day=31
close run=2 day=151
issue run=2 day=151
END
    statuses 'both runs issued' 3 5 <<END
close run=1 day=31
issue run=1 day=32
close run=2 day=151
issue run=2 day=151
END
    # A file of closes alone, as older ones are, whose bytes are written out.
    pack corrected.msg <"$work/corrected.calls"
    { cat "$work/corrected.msg" && repeat 07011f07029701 1; } >"$work/older.msg"
    expected_statuses 14 2 4 >"$work/statuses"
    expect 'an older file: 2 and 4' 0 ./run "$work/older.msg" <"$work/statuses"
}

# Delta groups of each run: assignments on the clearing deadline, behind it, on the correction deadline and behind that.
desk_on_groups() {
    pack groups.msg <<END
$OPEN
activate point=1 kind=1 area=1 partner=0 day=0
activate point=2 kind=3 area=1 partner=0 day=0
submit point=1 version=1 day=2 energies=100
submit point=2 version=1 day=2 energies=9
assign area=1 group=7 day=30
assign area=1 group=8 day=31
assign area=T group=9 day=150
assign area=1 group=10 day=151
END
    expect 'delta groups of each run' 0 ./run "$work/groups.msg" <<END
$(numbered 1 8 0)
9 26
G 1 1 4 9
G 1 1 7 91
T 1 1 100
G 2 1 8 91
G 2 1 9 9
T 2 1 100
S 1 1 1 2
S 1 2 1 2
S 2 1 1 2
S 2 2 1 2
END
    expect 'delta groups of each run, run 1 issued' 0 ./run examples/moved.msg <<END
$(numbered 1 16 0)
G 1 1 1 990
G 1 1 5 10
T 1 1 1000
G 2 1 5 20
G 2 1 7 975
G 2 1 9 5
T 2 1 1000
S 1 1 7 3
S 1 2 1 3
S 2 1 7 3
S 2 2 2 4
S 2 3 1 4
END
}

# expected_statuses CALLS FIRST SECOND: what is printed of that month with so many calls, all accepted: statuses of the versions
# that run 1 selects, and of those that run 2 has of its own.
expected_statuses() {
    numbered 1 "$1" 0
    cat "$work/figures"
    printf 'S 1 1 7 %d\nS 1 2 1 %d\nS 2 1 7 %d\nS 2 2 2 %d\nS 2 3 1 %d\n' "$2" "$2" "$2" "$3" "$3"
}

# statuses NAME FIRST SECOND: the month of desk_on_statuses with the calls on standard input.
statuses() {
    cat "$work/corrected.calls" - >"$work/statuses.calls"
    pack statuses.msg <"$work/statuses.calls"
    expected_statuses "$(wc -l <"$work/statuses.calls")" "$2" "$3" >"$work/statuses"
    expect "$1" 0 ./run "$work/statuses.msg" <"$work/statuses"
}

# repeat BYTES TIMES: the bytes, as printf writes them, so many times.
repeat() {
    python3 -c 'import sys; sys.stdout.buffer.write(bytes.fromhex(sys.argv[1]) * int(sys.argv[2]))' "$1" "$2"
}

# The lines 'number answer' from a number to another.
numbered() { # from, to, answer
    awk -v from="$1" -v to="$2" -v answer="$3" 'BEGIN { for (i = from; i <= to; i++) print i, answer }'
}

desk_on_long_files() {
    # 43 bytes, and 21,831 deactivations of three bytes on a day that has passed: 65,536.
    { cat examples/example.msg && repeat 030100 21831; } >"$work/full.msg"
    {
        printf '1 0\n2 0\n3 0\n4 14\n'
        numbered 5 21835 5
        printf 'G 1 1 1 1000\nT 1 1 1000\nG 2 1 1 1000\nT 2 1 1000\nS 1 1 7 2\nS 2 1 7 2\n'
    } >"$work/full"
    expect '65,536 bytes' 0 ./run "$work/full.msg" <"$work/full"
    { cat "$work/full.msg" && repeat ff 70000; } >"$work/long.msg"
    echo "! run: $work/long.msg has more than 65536 bytes; the desk reads the first 65536" | cat "$work/full" - >"$work/long"
    expect 'more than 65,536 bytes' 0 ./run "$work/long.msg" <"$work/long"
    echo '! run: standard input has more than 65536 bytes; the desk reads the first 65536' | cat "$work/full" - >"$work/long"
    expect 'more than 65,536 bytes on standard input' 0 sh -c "./run - <'$work/long.msg'" <"$work/long"
    expect 'more than 65,536 bytes in a pipe' 0 sh -c "cat '$work/long.msg' | ./run -" <"$work/long"
    rm -f "$work/pipe"
    mkfifo "$work/pipe"
    echo "! run: $work/pipe has more than 65536 bytes; the desk reads the first 65536" | cat "$work/full" - >"$work/long"
    expect 'more than 65,536 bytes in a named pipe' 0 sh -c "(cat '$work/long.msg' >'$work/pipe' &) && ./run '$work/pipe'" <"$work/long"
    # 122 bytes, 21,804 deactivations, and a deactivation that is cut behind its second byte.
    { cat examples/month.msg && repeat 030100 21900; } >"$work/cut.msg"
    {
        numbered 1 13 0
        numbered 14 21817 5
        printf 'F 31 65534\n'
        echo "! run: $work/cut.msg has more than 65536 bytes; the desk reads the first 65536"
    } >"$work/cut"
    expect 'a call over byte 65,536' 0 ./run "$work/cut.msg" <"$work/cut"
    # As many calls as 65,536 bytes can have, on a desk that is not open.
    repeat 070100 21845 >"$work/most.msg"
    numbered 1 21845 1 >"$work/most"
    expect 'the most calls' 0 ./run "$work/most.msg" <"$work/most"
}

desk_on_small_stack() {
    expect 'a stack of 1 MB' 0 sh -c 'ulimit -s 1024 && ./run examples/example.msg' <<END
1 0
2 0
3 0
4 14
G 1 1 1 1000
T 1 1 1000
G 2 1 1 1000
T 2 1 1000
S 1 1 7 2
S 2 1 7 2
END
}

# ---- ./run

run_itself() {
    expect 'run: no such file' 2 ./run "$work/none.msg" <<END
! run: $work/none.msg: no such file
END
    expect 'run: a folder' 2 ./run examples <<END
! run: examples: is a folder
END
    expect 'run: a file without a name' 2 ./run '' <<END
! run: : no such file
END
    expect 'desk run: a file without a name' 2 ./desk run '' <<END
! desk: : no such file
END
    expect 'run: a wrong option' 2 ./run --csv <<END
! run: there is no option --csv
! run: \`./run --help\` shows how it is used
END
    expect 'run: version' 0 ./run --version <<END
emorizugu, library $(sed -n 's/^#define EMORIZUGU_VERSION //p' include/emorizugu.h)
END
    ./run --help >"$work/help"
    sed 's/^/! /' "$work/help" >"$work/usage"
    expect 'run: two arguments' 2 ./run examples/example.msg examples/month.msg <"$work/usage"
    if grep -q '65536' "$work/help"; then pass 'run: help'; else fail 'run: help'; fi
    expect 'run: output that cannot be written' 1 sh -c './run >/dev/full' <<END
! emorizugu: the output cannot be written
END
    expect 'run: output that may not grow' 1 sh -c "ulimit -f 8 && ./run '$work/full.msg' >'$work/grown'" <<END
! emorizugu: the output cannot be written
END
    expect 'run: standard input closed' 2 sh -c './run - <&-' <<END
! run: standard input is closed
END
    expect 'run: standard output closed' 2 sh -c './run >&-' <<END
! run: standard output is closed
END
    expect 'run: all streams closed' 2 sh -c './run - <&- >&- 2>&-' </dev/null
    expect 'run: a file, standard input closed' 0 sh -c './run examples/kind.msg <&-' <<END
1 0
2 0
F 33 29
END
    expect 'run: standard input that cannot be read' 2 sh -c "./run - 0>'$work/written'" <<END
! run: standard input cannot be read: Bad file descriptor
END
    expect 'run: a folder on standard input' 2 sh -c './run - <examples' <<END
! run: standard input: is a folder
END
    full_disk
    expect 'run: a text file' 0 ./run examples/month.calls <<END
F 33 0
! run: examples/month.calls looks like text; ./desk run takes text, and ./desk pack makes a message file of it
END
    expect 'run: text on standard input' 0 sh -c 'cat examples/month.calls | ./run -' <<END
F 33 0
! run: standard input looks like text; ./desk run takes text, and ./desk pack makes a message file of it
END
    expect 'run: an empty standard input' 0 sh -c './run - </dev/null' <<END
! run: standard input is empty: it has no calls
END
    ln -sf "$PWD/run" "$work/link"
    expect 'run: a link to it' 0 "$work/link" examples/kind.msg <<END
1 0
2 0
F 33 29
END
}

# Standard input, or a named pipe, that cannot be kept whole: no folder for it, a file that may not grow, a disk without space. Nothing is run, and nothing
# is left behind.
full_disk() {
    local kept=$work/kept
    expect 'run: no folder to keep standard input in' 2 env TMPDIR="$work/nowhere" sh -c './run - <examples/month.msg' <<END
! run: standard input cannot be kept: there is no room for a temporary file in $work/nowhere
END
    rm -rf "$kept"
    mkdir -p "$kept/bin"
    expect 'run: a limit below the length of standard input' 2 env TMPDIR="$kept" sh -c "ulimit -f 8 && ./run - <'$work/full.msg'" <<END
! run: standard input cannot be kept whole in $kept: File too large
END
    expect 'run: a limit below the length of a named pipe' 2 env TMPDIR="$kept" sh -c "(cat '$work/full.msg' >'$work/pipe' 2>&1 &) && ulimit -f 8 && ./run '$work/pipe'" <<END
! run: $work/pipe cannot be kept whole in $kept: File too large
END
    # A temporary file on a disk that is full.
    # shellcheck disable=SC2016
    printf '#!/bin/sh\nln -s /dev/full "$TMPDIR/held" && echo "$TMPDIR/held"\n' >"$kept/bin/mktemp"
    chmod +x "$kept/bin/mktemp"
    expect 'run: a full disk' 2 env TMPDIR="$kept" PATH="$kept/bin:$PATH" sh -c './run - <examples/month.msg' <<END
! run: standard input cannot be kept whole in $kept: No space left on device
END
    holds 'run: nothing is left behind' test "$(ls "$kept")" = bin
    expect 'run: a limit that is far enough' 0 env TMPDIR="$kept" sh -c "ulimit -f 8 && ./run - <examples/kind.msg" <<END
1 0
2 0
F 33 29
END
}

# The first run builds the program; what that says is no part of a test.
if ./run examples/empty.msg >"$work/log" 2>&1; then
    pass 'the program is built'
    desk_on_examples
    desk_on_damaged_files
    desk_on_openings
    desk_on_figures
    desk_on_notices
    desk_on_acts
    desk_on_statuses
    desk_on_groups
    desk_on_long_files
    desk_on_small_stack
    run_itself
else
    fail 'the program is built' "$work/log"
fi
finish
