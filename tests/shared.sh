# What the test scripts share. A script that takes this in stands in the repository's folder, and has set `work`, the folder that it writes to, or
# sets it by `work_outside`.
# Each test prints a line; `finish` prints, as the very last line, 'N passed, M failed', and ends with 0 where M is 0.
passed=0
failed=0

# work_outside NAME: sets `work` to a new folder outside the repository, which is removed at the end. `rt ci` reads all that lies in the repository, target/ too, and
# refuses a link there, and a .rt or .antt file that is no crate's: what makes some writes here.
work_outside() {
    work=$(mktemp -d "${TMPDIR:-/tmp}/emorizugu-$1-XXXXXX") || exit 2
    trap 'rm -rf "$work"' EXIT
    trap 'exit 130' INT TERM HUP
}

pass() {
    passed=$((passed + 1))
    echo "ok    $1"
}

# fail NAME [FILE]: shows how the file begins and ends.
fail() {
    failed=$((failed + 1))
    echo "FAIL  $1"
    [ -n "${2:-}" ] || return 0
    if [ "$(wc -l <"$2")" -le 24 ]; then
        cut -c 1-300 "$2"
    else
        { head -n 12 "$2" && echo .. && tail -n 12 "$2"; } | cut -c 1-300
    fi
}

finish() {
    echo "$passed passed, $failed failed"
    [ "$failed" -eq 0 ]
    exit
}

# holds NAME COMMAND..: the command ends with 0.
holds() {
    local name=$1
    shift
    if "$@" >"$work/log" 2>&1; then
        pass "$name"
    else
        fail "$name" "$work/log"
        return 1
    fi
}

# expect NAME STATUS COMMAND..: what is wanted on standard output stands on standard input; a line after '! ' is wanted on
# standard error.
expect() {
    local name=$1 wanted=$2 status
    shift 2
    cat >"$work/wanted"
    echo "exit status $wanted" >>"$work/wanted"
    "$@" >"$work/out" 2>"$work/err" </dev/null
    status=$?
    {
        cat "$work/out"
        sed 's/^/! /' "$work/err"
        echo "exit status $status"
    } >"$work/written"
    if diff "$work/wanted" "$work/written" >"$work/log"; then pass "$name"; else fail "$name" "$work/log"; fi
}

# has NAME STATUS PATTERN COMMAND..: what the command writes, on both streams, has a line that matches.
has() {
    local name=$1 wanted=$2 pattern=$3 status
    shift 3
    "$@" >"$work/out" 2>&1 </dev/null
    status=$?
    if [ "$status" -eq "$wanted" ] && grep -aqE -- "$pattern" "$work/out"; then
        pass "$name"
    else
        echo "exit status $status" >>"$work/out"
        fail "$name" "$work/out"
    fi
}
