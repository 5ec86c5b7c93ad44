# shellcheck shell=sh
# The desk program behind the checks that it cannot make itself: a program of Rattle has no exit status of its own, and sees of standard input the bytes
# alone. ./run takes this in, and ./install puts it into the emorizugu of PREFIX/bin.
# A script that takes this in has taken in tools/shared.sh, and has set `program`, where the desk program stands, and `people`, how it calls the desk in words.
: "${program:?}" "${people:?}"

# The desk reads so many bytes of a file.
most=65536

about_program() {
    cat <<END
Prints the number and the answer of each call, then the figures of both runs and the versions that they select.
The desk reads the first $most bytes of a file and takes months of up to eight quarter hours; $people has neither limit.
END
}

about_status() {
    cat <<END
Exit status: 0 where the file was read, refused calls and damaged files among them; 1 where the output cannot be written;
2 where there is nothing to run.
END
}

# hint NAME LENGTH LETTER: what a person should know of a file, by its length and its first letter.
hint() {
    if [ "$2" -eq 0 ]; then
        say "$1 is empty: it has no calls"
    elif [ "$2" -gt "$most" ]; then
        say "$1 has more than $most bytes; the desk reads the first $most"
    fi
    case $3 in
    [a-zA-Z#]) say "$1 looks like text; $people run takes text, and $people pack makes a message file of it" ;;
    esac
}

# The program on standard input. It ends with 0 where it can; what it has to say of its output is on standard error. An output that may not grow further
# is one that cannot be written, and not the program's end.
run_program() {
    {
        complaint=$(trap '' XFSZ && "$program" 2>&1 >&3 3>&-)
        status=$?
    } 3>&1
    [ -z "$complaint" ] && return "$status"
    printf '%s\n' "$complaint" >&2
    [ "$status" -ne 0 ] && return "$status"
    return 1
}

# run_kept NAME: the first bytes of standard input are kept, one more than are read, so that their number is known. Where they cannot be read, or there is no
# room for all of them, there is nothing to run; no signal ends this then.
run_kept() {
    folder=${TMPDIR:-/tmp}
    held=$(mktemp 2>/dev/null) || die "$1 cannot be kept: there is no room for a temporary file in $folder"
    trap 'rm -f "$held"' EXIT
    trap 'exit 130' INT TERM HUP
    if ! complaint=$(trap '' XFSZ && LC_ALL=C head -c $((most + 1)) 2>&1 >"$held"); then
        case $complaint in
        *'error reading'*) die "$1 cannot be read: ${complaint##*: }" ;;
        *) die "$1 cannot be kept whole in $folder: ${complaint##*: }" ;;
        esac
    fi
    hint "$1" "$(wc -c <"$held")" "$(head -c 1 "$held" | tr -d '\0')"
    run_program <"$held"
}

# run_file FILE: one that was looked at.
run_file() {
    if [ "$1" = - ]; then
        [ ! -t 0 ] || say 'reads standard input; end it with Ctrl-D'
        run_kept 'standard input'
    elif [ -f "$1" ]; then
        hint "$1" "$(wc -c <"$1")" "$(head -c 1 "$1" | tr -d '\0')"
        run_program <"$1"
    else
        # A named pipe, say, is read once.
        # shellcheck disable=SC2094
        run_kept "$1" <"$1"
    fi
}
