# shellcheck shell=bash
# What ./run, ./desk and ./install share: they build what they need where it is missing or older than its sources.
# A script that takes this in has set `name`, by which it speaks, and `here`, the repository's folder.
: "${here:?}"

. "$here/tools/shared.sh" || exit 2
. "$here/tools/layout.sh" || exit 2

# The version of the library's entries.
library_version() {
    sed -n 's/^#define EMORIZUGU_VERSION //p' "$here/include/emorizugu.h"
}

# Whether cargo does not run, or is older than the program needs; says which.
old_cargo() {
    local found least
    least=$(sed -n 's/^rust-version = "\(.*\)"$/\1/p' "$here/command/Cargo.toml")
    if ! found=$(cargo --version 2>&1); then
        say "cargo does not run: ${found%%$'\n'*}"
        return
    fi
    found=${found#cargo }
    found=${found%% *}
    [ "$(printf '%s\n' "$least" "$found" | sort -V | head -n 1)" = "$least" ] && return 1
    say "cargo $found is too old: the program needs $least or newer, as Debian 13 has it"
}

# missing COMMAND: says what it is for and where it is to be had, where it is missing or too old.
missing() {
    if command -v "$1" >/dev/null 2>&1; then
        [ "$1" = cargo ] && old_cargo
        return
    fi
    case $1 in
    rt) say 'missing: rt (the Rattle toolchain: compiler and prover). Install the Rattle kit and put its bin folder on the PATH.' ;;
    cargo) say 'missing: cargo (builds the program). Debian: apt-get install cargo' ;;
    cc) say 'missing: cc (links the program). Debian: apt-get install gcc libc6-dev' ;;
    esac
}

# need COMMAND..: every one that is missing is named, before anything is built.
need() {
    local command lost=''
    for command in "$@"; do
        ! missing "$command" || lost=1
    done
    [ -z "$lost" ] || exit 2
}

# older FILE SOURCE..: whether the file is missing, or a source is newer. What a build leaves is in target/, and in each crate's out/; making that changes
# the crate's own folder, so what counts of crates/ are the files and folders in its crates.
older() {
    local file=$1 source least found
    shift
    [ ! -e "$file" ] && return 0
    for source in "$@"; do
        least=0
        [ "$source" != "$here/crates" ] || least=2
        found=$(find "$source" -mindepth "$least" -name out -prune -o -newer "$file" -print -quit)
        [ -z "$found" ] || return 0
    done
    return 1
}

# The mark of a proof that ended well, by what was proved.
mark_of() { # crate
    echo "$here/target/$1.built"
}

# unproved FILE CRATE: whether the file, made of the crate and those below it, is to be made: no proof of it has ended well, or something is newer
# than the last that has: a source, or the file itself, which a proof that was broken off may have left.
unproved() {
    local mark
    mark=$(mark_of "$2")
    [ -e "$1" ] || return 0
    older "$mark" "$here/crates.txt" "$here/crates" "$1"
}

# Says where the toolchain is another one than the proofs were checked with.
compare_toolchain() {
    local pinned found
    pinned=$(cat "$here/toolchain.txt")
    found=$(rt version 2>/dev/null)
    [ "$found" = "$pinned" ] || say "the toolchain on the PATH is '$found', and the proofs were checked with '$pinned' (toolchain.txt)"
}

# ended WHAT STATUS LOG COMMAND..: shows the end of what a command wrote where it failed.
ended() {
    local what=$1 status=$2 log=$3
    shift 3
    [ "$status" -eq 0 ] && return
    tail -n 20 "$log" | cut -c 1-300 >&2
    die "$what is not built: $* ended with status $status (all it wrote: $log)"
}

# build WHAT LOG COMMAND..: runs the command in the repository's folder.
build() {
    local what=$1 log=$here/target/$2
    shift 2
    mkdir -p "$here/target" || exit 2
    (cd "$here" && "$@") >"$log" 2>&1
    ended "$what" $? "$log" "$@"
}

# The crates that a crate stands on, and itself, in the order in which `rt` proves them.
crates_of() { # crate
    awk -F: -v crate="$1" '
        function visit(n,    a, i, k) {
            if (n in seen || !(n in deps)) return
            seen[n]
            k = split(deps[n], a, " ")
            for (i = 1; i <= k; i++) visit(a[i])
            print n
        }
        { sub(/#.*/, "") }
        NF > 1 { split($1, words, " "); deps[words[1]] = $2 }
        END { visit(crate) }' "$here/crates.txt"
}

# Says each second how far a proof is, until it ends: on a terminal one line that is renewed, else a line where there is something new. `rt` names a crate when
# it begins with it, and passes over those that an earlier run has proved.
follow() { # process, log, crate
    local shown='' now crates at most
    crates=$(crates_of "$3")
    most=$(printf '%s\n' "$crates" | wc -l)
    while sleep 1 && kill -0 "$1" 2>/dev/null; do
        at=$(sed -n 's/^rt: chose --jobs [0-9]* for \([a-z_0-9]*\)$/\1/p' "$2" | tail -n 1)
        now=$(printf '%s\n' "$crates" | awk -v at="$at" -v most="$most" '
            $0 == at { before = NR - 1 }
            END { printf "%d of %d crates proved%s", before, most, at == "" ? "" : ", at work on " at }')
        if [ -t 2 ]; then
            printf '\r%s: %s; %d s\033[K' "$name" "$now" "$SECONDS" >&2
        elif [ "$now" != "$shown" ]; then
            say "$now; $SECONDS s"
        fi
        shown=$now
    done
    [ ! -t 2 ] || printf '\r\033[K' >&2
}

break_off() {
    echo >&2
    say 'broken off; the next time goes on from the last crate that was proved'
    exit 130
}

# prove WHAT CRATE VERB: `rt VERB` in the crate's folder, with its progress. What it stands on is proved first, as far as no earlier run has. A program that is
# built by `rt run` is run once, on nothing.
prove() {
    local what=$1 crate=$2 log=$here/target/$2.log mark process status
    mark=$(mark_of "$2")
    mkdir -p "$here/target" || exit 2
    rm -f "$mark"
    SECONDS=0
    # In a process group of its own, so that all of it ends with this script.
    set -m
    (cd "$here/crates/$crate" && exec rt "$3") >"$log" 2>&1 </dev/null &
    process=$!
    set +m
    # shellcheck disable=SC2064
    trap "kill -TERM -- -$process 2>/dev/null; break_off" INT TERM HUP
    follow "$process" "$log" "$crate"
    wait "$process"
    status=$?
    trap - INT TERM HUP
    ended "$what" "$status" "$log" rt "$3" "(in crates/$crate)"
    touch "$mark"
}

# The proved library, where it is missing or older than its sources; what else is needed to go on is named with what is missing.
make_library() { # command that is needed too..
    if unproved "$here/$(archive_of host)" host; then
        need rt "$@"
        compare_toolchain
        say 'building the library; what it stands on is proved first, which takes some minutes'
        prove 'the library' host lib
    else
        need "$@"
    fi
}
