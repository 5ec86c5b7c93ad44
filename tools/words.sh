# shellcheck shell=bash
# What ./desk says before its program is built: the help, the version, and what is wrong with the words of a command or with a file that they name. The
# program says the same of them (tests/fresh.sh compares the two); its help stands in command/help.txt.
# A script that takes this in has taken in tools/build.sh.
: "${here:?}"

# part NAME: what stands below its line in the text of the help.
part() {
    sed -n "/^== $1\$/,/^== /{ /^== /!p; }" "$here/command/help.txt"
}

commands() {
    sed -n '/^== desk$/d; /^== status$/d; s/^== //p' "$here/command/help.txt"
}

overview() {
    part desk | sed -n 1,2p
    local command
    for command in $(commands); do
        printf '    desk %-10s%s\n' "$command" "$(part "$command" | sed -n '3s/\.$//p')"
    done
    echo
    part desk | sed 1,2d
    echo
    part status
}

help_on() { # command
    part "$1"
    echo
    part status
}

version() {
    echo "desk $(sed -n 's/^version = "\(.*\)"$/\1/p' "$here/command/Cargo.toml"), library $(library_version)"
}

# Says what is wrong with the words, and ends.
wrong() {
    say "$*"
    # shellcheck disable=SC2016
    die '`desk --help` shows how it is used'
}

# Words with commas between them.
listed() {
    local all
    all=$(printf '%s, ' "$@")
    echo "${all%, }"
}

is_command() {
    commands | grep -qxF -e "$1"
}

no_command() { # word
    # The names have no blanks.
    # shellcheck disable=SC2046
    wrong "there is no command '$1'; commands are $(listed $(commands))"
}

# read_usage COMMAND: its options in `options`, the forms of a list first, those of them that a word follows also in `valued`.
read_usage() {
    local words word
    read -ra words <<<"$(part "$1" | sed '1!d; s/[][|]/ /g')"
    options=() valued=' '
    for word in "${words[@]}"; do
        case $word in
        --csv | --json) ;;
        -*) options+=("$word") ;;
        *) [ ${#options[@]} -eq 0 ] || valued+="${options[-1]} " ;;
        esac
    done
    case " ${words[*]} " in *' --csv --json '*) options=(--csv --json "${options[@]}") ;; esac
}

has_option() {
    case " ${options[*]} " in *" $1 "*) ;; *) return 1 ;; esac
}

is_valued() {
    case $valued in *" $1 "*) ;; *) return 1 ;; esac
}

no_option() { # command, option
    local own=("${options[@]}") having=() command
    for command in $(commands); do
        read_usage "$command"
        ! has_option "$2" || having+=("$command")
    done
    case ${#having[@]} in
    0) wrong "desk $1 has no option $2; its options are $(listed "${own[@]}")" ;;
    1) wrong "desk $1 has no option $2; desk ${having[0]} has it" ;;
    *) wrong "desk $1 has no option $2; $(listed "${having[@]}") have it" ;;
    esac
}

number() { # option, word, most
    if ! [[ ${2#+} =~ ^0*([0-9]{1,4})$ && ${BASH_REMATCH[1]} -ge 1 && ${BASH_REMATCH[1]} -le $3 ]]; then
        wrong "$1 takes a number from 1 to $3: '$2'"
    fi
}

# take_option OPTION [WORD]: what is wrong with an option, or with the word that follows it.
take_option() {
    case " $seen " in *" $1 "*) wrong "$1 stands twice" ;; esac
    seen+=" $1"
    case $1 in
    --csv | --json | --all) [ $# -eq 1 ] || wrong "$1 takes no value" ;;
    --run) number "$1" "${2-}" 2 ;;
    --group) number "$1" "${2-}" 64 ;;
    --to) number "$1" "${2-}" 400 ;;
    --month)
        [[ ${2-} =~ ^20[2-5][0-9]-(0[1-9]|1[0-2])$ ]] ||
            wrong "--month takes a month of 2020 to 2059, written YYYY-MM: '${2-}'"
        ;;
    --first | --clearing | --correction) [ $# -eq 2 ] || wrong "$1 takes a day number or a date" ;;
    *) [ $# -eq 2 ] || wrong "$1 takes a file" ;;
    esac
    [ "$1" != --schedules ] || schedules=$2
}

# look_at_names COMMAND NAME..: what stands behind a command beside its options, and the text of schedules.
look_at_names() {
    # shellcheck disable=SC2016
    local command=$1 count=1 what='one file; `-` is standard input'
    shift
    case $command in
    causes) return ;;
    day) count=2 what='a month and a date: desk day 2026-10 2026-11-12' ;;
    date) count=2 what='a month and a day number: desk date 2026-10 9' ;;
    calendar) what='one month: desk calendar 2026-10' ;;
    report) count=2 what='two files, a month and its schedules: desk report month.calls month.schedules' ;;
    esac
    [ $# -eq "$count" ] || wrong "desk $command takes $what"
    case $command in
    day | date | calendar) return ;;
    report) schedules=$2 ;;
    esac
    [ "$1 $schedules" != '- -' ] || wrong 'the month and its schedules cannot both be standard input'
    look_at "$1"
    [ -z "$schedules" ] || look_at "$schedules"
}

# look_at_words COMMAND WORD..: its help, where it is asked for; else what is wrong with the words.
look_at_words() {
    local command=$1 names=() option word options valued seen='' schedules=''
    shift
    read_usage "$command"
    while [ $# -gt 0 ]; do
        option=$1 word=()
        shift
        case $option in
        --)
            names+=("$@")
            break
            ;;
        --help | -h)
            help_on "$command"
            exit
            ;;
        --*=*) word=("${option#*=}") option=${option%%=*} ;;
        -?*) ;;
        *)
            names+=("$option")
            continue
            ;;
        esac
        has_option "$option" || no_option "$command" "$option"
        if [ ${#word[@]} -eq 0 ] && [ $# -gt 0 ] && is_valued "$option"; then
            word=("$1")
            shift
        fi
        take_option "$option" "${word[@]}"
    done
    if [[ "$seen " == *' --csv '* && "$seen " == *' --json '* ]]; then wrong '--csv and --json do not go together'; fi
    look_at_names "$command" "${names[@]}"
}

# Says what needs no program, and ends; else the words are handed to the program.
say_at_once() {
    is_open 1 || die 'standard output is closed'
    if [ $# -eq 0 ]; then
        overview >&2
        exit 2
    fi
    case $1 in
    --help | -h | help)
        [ $# -lt 2 ] || is_command "$2" || no_command "$2"
        [ $# -lt 3 ] || wrong "nothing follows: '$3'"
        if [ $# -eq 2 ]; then help_on "$2"; else overview; fi
        exit
        ;;
    --version | --man)
        [ $# -eq 1 ] || wrong "nothing follows: '$2'"
        [ "$1" = --man ] || { version && exit; }
        ;;
    *)
        is_command "$1" || no_command "$1"
        look_at_words "$@"
        ;;
    esac
}
