# shellcheck shell=sh
# The emorizugu that ./install puts into PREFIX/bin, behind tools/shared.sh and tools/program.sh and lines that set `name`, `version`, `program` and `people`.
: "${version:?}" "${program:?}"

usage() {
    cat <<END
emorizugu FILE        a message file through the settlement desk
emorizugu, or with -  a message file on standard input
emorizugu --version   the version of the library that the program has

$(about_program)
\`man emorizugu\` explains the lines.

$(about_status)
END
}

if [ $# -gt 1 ]; then
    usage >&2
    exit 2
fi
case ${1-} in
--help | -h)
    usage
    exit
    ;;
--version)
    echo "emorizugu, library $version"
    exit
    ;;
-?*)
    say "there is no option $1"
    # shellcheck disable=SC2016
    die '`emorizugu --help` shows how it is used'
    ;;
esac
is_open 1 || die 'standard output is closed'
[ -x "$program" ] || die "$program: no such program"
look_at "${1--}"
run_file "${1--}"
