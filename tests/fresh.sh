#!/usr/bin/env bash
# Tests of a fresh clone, on machines on which one thing or another is missing. What needs no program is said at once, and what is missing is named, before
# anything is built: the commands that build are stand-ins here, which only note that they were called.
# Writes to a folder of its own outside the repository, which is removed at the end. Builds ./desk and ./run first where they are missing or old.
set -u
cd "$(dirname "$0")/.." || exit 2
. tests/shared.sh
. tools/layout.sh
work_outside fresh
clone=$work/clone
bin=$work/bin
built=$work/built

# A copy without what was made here.
make_clone() {
    mkdir -p "$clone" || exit 2
    tar -c --exclude=./.git --exclude=./target --exclude='./crates/*/out' . | tar -x -C "$clone"
}

# machine COMMAND..: a PATH with what every Linux has, and with stand-ins for these commands.
machine() {
    local command
    rm -rf "$bin" "$built"
    mkdir "$bin"
    for command in awk basename bash cat cp cut date dirname env find grep head install mkdir mktemp readlink rm rmdir sed sh sleep sort tail tee touch tr wc; do
        ln -s "$(command -v "$command")" "$bin/$command"
    done
    for command in "$@"; do
        printf '#!/bin/sh\necho "%s $*" >>"%s"\nexit 1\n' "$command" "$built" >"$bin/$command"
        chmod +x "$bin/$command"
    done
}

# answers COMMAND WORDS: what a stand-in says to a question for its version.
answers() {
    printf '#!/bin/sh\ncase $* in\nversion | --version) echo "%s" ;;\n*) echo "%s $*" >>"%s" && exit 1 ;;\nesac\n' "$2" "$1" "$built" >"$bin/$1"
    chmod +x "$bin/$1"
}

# at_once NAME STATUS COMMAND..: as `expect`, in the clone, on that machine; and nothing is built.
at_once() {
    local name=$1 status=$2
    shift 2
    expect "$name" "$status" env -C "$clone" PATH="$bin" "$@"
    [ ! -e "$built" ] || fail "$name: is built" "$built"
}

# same WORD..: ./desk says of these words before it is built what its program says of them, and ends so.
same() {
    env PATH="$bin" "$clone/desk" "$@" >"$work/early" 2>&1
    echo "exit status $?" >>"$work/early"
    ./desk "$@" >"$work/late" 2>&1
    echo "exit status $?" >>"$work/late"
    holds "at once and by the program: desk $*" diff "$work/early" "$work/late"
    [ ! -e "$built" ] || fail "desk $*: is built" "$built"
}

desk_at_once() {
    local command words
    machine rt cargo cc
    ./desk --help >"$work/help"
    sed 's/^/! /' "$work/help" >"$work/usage"
    at_once 'desk without a word' 2 ./desk <"$work/usage"
    # The names have no blanks.
    # shellcheck disable=SC2013
    for command in $(sed -n 's/^    desk \([a-z]*\) .*/\1/p' "$work/help"); do
        same "$command" --help
        same "$command" --wrong
    done
    # A case is words without blanks.
    while IFS= read -r words; do
        # shellcheck disable=SC2086
        same $words
    done <<END
--help
-h
help report
help runn
help run x
runn
-x
--version
--version x
--man x
run
run x
run x y
run examples
run examples/month.calls/x y
run -x
run x --group 3
run x --schedules y
run x --month
run x --month 2026-13
run x --month=2060-01
run -- --month
log x --run 1 --run 2
log x --run
log x --run 3
log x --run=0
log x --csv=1
log x --csv --json
figures x --group 65
figures x --group +064
figures x --group one
calendar
calendar 2026-10 --first
calendar 2026-10 --to 401
day 2026-10
date
report x
report - -
report examples/month.calls x
page examples/month.calls --schedules
page examples/month.calls --schedules x
pack examples/month.calls -o
END
    same run ''
    at_once 'desk: standard input closed' 2 sh -c './desk run - <&-' <<END
! desk: standard input is closed
END
    at_once 'desk: standard output closed' 2 sh -c './desk run examples/month.calls >&-' <<END
! desk: standard output is closed
END
}

run_at_once() {
    machine rt
    at_once 'run --version' 0 ./run --version <<END
$(./run --version)
END
    ./run --help >"$work/help"
    at_once 'run --help' 0 ./run --help <"$work/help"
    at_once 'run: a wrong option' 2 ./run --csv <<END
! run: there is no option --csv
! run: \`./run --help\` shows how it is used
END
    at_once 'run: no such file' 2 ./run none.msg <<END
! run: none.msg: no such file
END
    at_once 'run: a file without a name' 2 ./run '' <<END
! run: : no such file
END
    at_once 'run: a folder' 2 ./run examples <<END
! run: examples: is a folder
END
    at_once 'run: standard input closed' 2 sh -c './run - <&-' <<END
! run: standard input is closed
END
    at_once 'run: a folder on standard input' 2 sh -c './run - <examples' <<END
! run: standard input: is a folder
END
}

install_at_once() {
    machine rt cargo cc
    ./install --help >"$work/help"
    sed 's/^/! /' "$work/help" >"$work/usage"
    at_once 'install --help' 0 ./install --help <"$work/help"
    at_once 'install without a prefix' 2 ./install <"$work/usage"
    at_once 'install with an empty prefix' 2 ./install '' <"$work/usage"
    at_once 'install with two prefixes' 2 ./install a b <"$work/usage"
    at_once 'install: a wrong option' 2 ./install --prefix x <<END
! install: there is no option --prefix
! install: \`./install --help\` shows how it is used
END
    at_once 'install: a prefix below a file' 2 ./install LICENSE/x <<END
! install: $clone/LICENSE/x cannot be made: $clone/LICENSE is no folder
END
    at_once 'install: a prefix that no .pc file can have' 2 ./install 'a"b' <<END
! install: a prefix with a quote, a backslash, \$, \` or # has no place in a .pc file: $clone/a"b
END
    at_once 'install --remove: nothing there' 2 ./install --remove nowhere <<END
! install: nothing to take away: there is no $clone/nowhere/libexec/emorizugu/installed
END
    # shellcheck disable=SC2065
    ./test --help >"$work/help"
    at_once 'test --help' 0 ./test --help <"$work/help"
    sed 's/^/! /' "$work/help" >"$work/usage"
    at_once 'test: a wrong option' 2 ./test --quick <"$work/usage"
}

RT='missing: rt (the Rattle toolchain: compiler and prover). Install the Rattle kit and put its bin folder on the PATH.'
CARGO='missing: cargo (builds the program). Debian: apt-get install cargo'
CC='missing: cc (links the program). Debian: apt-get install gcc libc6-dev'

# builds WHAT WORDS..: what ./desk and ./install say where something is missing; no folder is made then.
builds() {
    local what=$1
    shift
    printf '! desk: %s\n' "$@" >"$work/words"
    at_once "desk: $what" 2 ./desk run examples/month.calls <"$work/words"
    at_once "install: $what" 2 ./install "$work/prefix" <"$work/words"
    [ ! -e "$work/prefix" ] || fail "install: $what: a folder is made"
}

something_missing() {
    machine cargo cc
    answers cargo 'cargo 1.85.0 (d73d2caf9 2024-12-31)'
    builds 'no Rattle' "$RT"
    at_once 'run: no Rattle' 2 ./run <<END
! run: $RT
END
    machine rt cc
    builds 'no cargo' "$CARGO"
    machine rt cargo
    answers cargo 'cargo 1.100.1'
    builds 'no linker' "$CC"
    machine rt cargo cc
    answers cargo 'cargo 1.63.0'
    builds 'an old cargo' 'cargo 1.63.0 is too old: the program needs 1.85 or newer, as Debian 13 has it'
    printf '#!/bin/sh\necho "error: no toolchain is set" >&2\nexit 1\n' >"$bin/cargo"
    builds 'a cargo that does not run' 'cargo does not run: error: no toolchain is set'
    machine
    builds 'nothing' "$RT" "$CARGO" "$CC"
    machine rt cargo gcc g++ python3
    at_once 'test: no node' 1 ./test <<END
missing: node (runs the script of the page that ./desk writes). Debian: apt-get install nodejs
0 passed, 1 failed
END
    machine cargo gcc g++ python3 node
    at_once 'test: no Rattle' 1 ./test <<END
$RT
0 passed, 1 failed
END
}

# Programs that are older than their sources run as they were built.
old_programs() {
    local emorizugu
    emorizugu=$(program_of emorizugu)
    machine
    mkdir -p "$clone/${emorizugu%/*}" "$clone/target/desk/release"
    cp "$emorizugu" "$clone/$emorizugu"
    cp target/desk/release/desk "$clone/target/desk/release"
    touch -d '2001-01-01' "$clone/$emorizugu" "$clone/target/desk/release/desk"
    at_once 'desk: no toolchain, and a program that is old' 0 ./desk --version <<END
$(./desk --version)
! desk: runs as it was built: its sources are newer, and there is no toolchain on the PATH
END
    at_once 'run: no toolchain, and a program that is old' 0 ./run examples/kind.msg <<END
1 0
2 0
F 33 29
! run: runs the program as it was built: its sources are newer, and there is no toolchain on the PATH
END
    # Another toolchain than the one that the proofs were checked with; it finds all proved.
    printf '#!/bin/sh\necho another\n' >"$bin/rt"
    chmod +x "$bin/rt"
    echo 'the one' >"$clone/toolchain.txt"
    at_once 'run: another toolchain' 0 ./run examples/kind.msg <<END
1 0
2 0
F 33 29
! run: the toolchain on the PATH is 'another', and the proofs were checked with 'the one' (toolchain.txt)
! run: building the desk program; what it stands on is proved first, which takes some minutes
END
}

# What building says is no part of a test.
if ./desk causes >/dev/null 2>"$work/log" && ./run examples/empty.msg >>"$work/log" 2>&1 && make_clone; then
    desk_at_once
    run_at_once
    install_at_once
    something_missing
    old_programs
else
    fail 'the programs are built, and a clone is made' "$work/log"
fi
finish
