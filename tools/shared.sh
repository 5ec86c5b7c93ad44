# shellcheck shell=sh
# What the scripts share. One that takes this in has set `name`, by which it speaks.
: "${name:?}"

say() {
    printf '%s: %s\n' "$name" "$*" >&2
}

die() {
    say "$@"
    exit 2
}

# is_open NUMBER: whether that stream was open at the start.
is_open() {
    [ -e "/proc/self/fd/$1" ] || [ ! -d /proc/self/fd ]
}

# look_at FILE: a file, or standard input for -, that cannot be read.
look_at() {
    if [ "$1" = - ]; then
        is_open 0 || die 'standard input is closed'
        [ ! -d /dev/stdin ] || die 'standard input: is a folder'
        return
    fi
    [ -e "$1" ] || die "$1: no such file"
    [ ! -d "$1" ] || die "$1: is a folder"
    [ -r "$1" ] || die "$1: no permission"
}
