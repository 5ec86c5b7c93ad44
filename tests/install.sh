#!/usr/bin/env bash
# Tests of ./install and of what it puts in place: desk, emorizugu, man pages, documents; the hosts of the examples over it, in C, C++ and Python; entries
# with NULL, and on a small stack.
# Writes to a folder of its own outside the repository, which is removed at the end, and under target/.
# Most functions here are called by `holds`.
# shellcheck disable=SC2317
set -u
cd "$(dirname "$0")/.." || exit 2
. tests/shared.sh
work_outside install

here=$PWD
prefix=$work/prefix
sums='0 refused, ending 0
group 1: 18000 Wh
group 2: 50100 Wh
group 4: 200 Wh
group 5: 95000 Wh
group 6: 16700 Wh'

# pkg-config, or what it says of the .pc file where there is none.
pkg_config() {
    command -v pkg-config >/dev/null 2>&1 && return
    mkdir -p "$work/bin"
    cat >"$work/bin/pkg-config" <<END
#!/bin/sh
value() { sed -n "s#\$1##; t found; b; :found; s#\\\${prefix}#$prefix#g; s#\"##g; p" "$prefix/lib/pkgconfig/emorizugu.pc"; }
case \$1 in
--variable=prefix) value '^prefix=' ;;
--cflags) value '^Cflags: ' && value '^Libs: ' ;;
esac
END
    chmod +x "$work/bin/pkg-config"
}

# lines FILE: the command lines at the head of an example, run in a copy of the folder that was put in place; a host's text is left in `out`.
lines() {
    rm -rf "$work/examples"
    cp -R "$prefix/share/doc/emorizugu/examples" "$work/examples" || return 1
    sed -n 's#^[ */]*    \(\(cc\|g++\|python3\) .*\)#\1#p' "examples/$1" >"$work/lines"
    [ -s "$work/lines" ] || return 1
    (cd "$work/examples" && PATH=$work/bin:$PATH PKG_CONFIG_PATH=$prefix/lib/pkgconfig sh -e "$work/lines") >"$work/out"
}

# Compilers take the flags apart.
# shellcheck disable=SC2046
compiled() { # compiler, program, what is compiled..
    "$1" -pedantic -Wall -Wextra -Werror -O2 -o "$work/$2" "${@:3}" $(PATH=$work/bin:$PATH PKG_CONFIG_PATH=$prefix/lib/pkgconfig pkg-config --cflags --libs emorizugu)
}

in_c() {
    lines book.c && cmp "$work/examples/new.book" examples/month.book && lines host.c &&
        lines report.c && grep -q '^    5  *1000  *1000$' "$work/out" &&
        lines calls.c && cmp "$work/examples/new.msg" examples/example.msg && grep -q '^    36  submit point 1, version 7, day 2, energies 1000$' "$work/out" &&
        lines calendar.c && [ "$(cat "$work/out")" = 9 ] && compiled gcc book -std=c99 examples/book.c examples/files.c
}

in_cpp() {
    lines host.cc && [ "$(cat "$work/out")" = "$sums" ] && compiled g++ host -std=c++17 examples/host.cc
}

in_python() {
    lines host.py && [ "$(cat "$work/out")" = "$sums" ]
}

entries() {
    compiled gcc entries -std=gnu99 tests/entries.c -lpthread && "$work/entries" examples/month.msg
}

# Shows the stacks.
calls() {
    compiled gcc calls -std=gnu99 tests/calls.c -lpthread && "$work/calls" examples/month.msg >"$work/stacks"
}

times() {
    compiled gcc times -std=c99 tests/times.c && "$work/times" examples/month.msg && python3 tests/times.py "$prefix/bin/desk" run examples/month.calls
}

# ---- emorizugu

emorizugu() {
    local program=$prefix/bin/emorizugu
    ./run examples/month.msg >"$work/month"
    expect 'emorizugu: a file' 0 "$program" examples/month.msg <"$work/month"
    expect 'emorizugu: standard input' 0 sh -c "'$program' <examples/month.msg" <"$work/month"
    expect 'emorizugu: standard input by -' 0 sh -c "cat examples/month.msg | '$program' -" <"$work/month"
    expect 'emorizugu: a damaged file' 0 "$program" examples/kind.msg <<END
1 0
2 0
F 33 29
END
    expect 'emorizugu: text' 0 "$program" examples/month.calls <<END
F 33 0
! emorizugu: examples/month.calls looks like text; desk run takes text, and desk pack makes a message file of it
END
    expect 'emorizugu: an empty standard input' 0 sh -c "'$program' </dev/null" <<END
! emorizugu: standard input is empty: it has no calls
END
    expect 'emorizugu: a full disk' 1 sh -c "'$program' examples/month.msg >/dev/full" <<END
! emorizugu: the output cannot be written
END
    expect 'emorizugu: a full disk, from standard input' 1 sh -c "'$program' <examples/month.msg >/dev/full" <<END
! emorizugu: the output cannot be written
END
    expect 'emorizugu: standard output closed' 2 sh -c "'$program' <examples/month.msg >&-" <<END
! emorizugu: standard output is closed
END
    expect 'emorizugu: standard input closed' 2 sh -c "'$program' <&-" <<END
! emorizugu: standard input is closed
END
    expect 'emorizugu: a folder on standard input' 2 sh -c "'$program' <examples" <<END
! emorizugu: standard input: is a folder
END
    expect 'emorizugu: standard input that cannot be read' 2 sh -c "'$program' 0>'$work/nothing'" <<END
! emorizugu: standard input cannot be read: Bad file descriptor
END
    expect 'emorizugu: no such file' 2 "$program" "$work/none.msg" <<END
! emorizugu: $work/none.msg: no such file
END
    expect 'emorizugu: a file without a name' 2 "$program" '' <<END
! emorizugu: : no such file
END
    expect 'emorizugu: a folder' 2 "$program" examples <<END
! emorizugu: examples: is a folder
END
    expect 'emorizugu: a wrong option' 2 "$program" --csv <<END
! emorizugu: there is no option --csv
! emorizugu: \`emorizugu --help\` shows how it is used
END
    expect 'emorizugu --version' 0 "$program" --version <<END
$(./run --version)
END
    "$program" --help >"$work/help"
    sed 's/^/! /' "$work/help" >"$work/usage"
    expect 'emorizugu: two files' 2 "$program" examples/month.msg examples/month.msg <"$work/usage"
    holds 'emorizugu --help and its man page' on_page "$work/help" "$prefix/share/man/man1/emorizugu.1"
    ! command -v man >/dev/null 2>&1 || has 'man emorizugu, shown' 0 'emorizugu FILE' man -l "$prefix/share/man/man1/emorizugu.1"
    ln -s "$program" "$work/link"
    expect 'emorizugu: a link to it' 0 "$work/link" examples/month.msg <"$work/month"
    cp "$program" "$work/alone"
    expect 'emorizugu: without its program' 2 "$work/alone" examples/month.msg <<END
! emorizugu: $work/libexec/emorizugu/emorizugu: no such program
END
}

# on_page TEXT PAGE: every line of the text stands in the man page, but the one that points to it.
on_page() {
    local line
    sed 's/\\-/-/g' "$2" >"$work/manual"
    [ -s "$1" ] && while IFS= read -r line; do
        case $line in '' | '`man '*) continue ;; esac
        grep -qxF -e "$line" "$work/manual" || { echo "$line" && return 1; }
    done <"$1"
}

# ---- in place and away

# A folder's files and folders with their modes.
tree() {
    (cd "$1" && find . -printf '%m %y %p\n' | sort)
}

# What is put in place can be read by everybody, whatever the mask.
readable() {
    (umask 077 && ./install "$work/masked") || return 1
    tree "$work/masked" >"$work/modes"
    tree "$prefix" | diff - "$work/modes" && ! grep -v -E '^(755 d|644 f|755 f \./(bin/|libexec/emorizugu/emorizugu$|share/doc/emorizugu/examples/host\.py$))' "$work/modes"
}

# A prefix that is no whole path, below DESTDIR.
below() {
    (cd "$work" && DESTDIR=below "$here/install" a/prefix && "./below$work/a/prefix/bin/desk" --version &&
        grep -qx "prefix=$work/a/prefix" "below$work/a/prefix/lib/pkgconfig/emorizugu.pc" && DESTDIR=below "$here/install" --remove a/prefix) &&
        [ ! -e "$work/below" ] && [ ! -e "$work/a" ]
}

# Folders and files that were there before, or came later, stay; a second install over the first knows what the first made.
others_stay() {
    local there=$work/there
    mkdir -p "$there/bin" "$there/share" && touch "$there/bin/mine" && tree "$there" >"$work/before" || return 1
    ./install "$there" && echo lost >>"$there/libexec/emorizugu/installed" && touch "$there/lost" && ./install "$there/" && [ ! -e "$there/lost" ] || return 1
    ./install --remove "$there" && tree "$there" | diff "$work/before" - || return 1
    ./install "$there" && touch "$there/lib/theirs" && ./install --remove "$there" &&
        [ "$(cd "$there" && echo * bin/* lib/*)" = 'bin lib share bin/mine lib/theirs' ]
}

# A list that names what lies outside is not followed.
outside() {
    local there=$work/outside
    mkdir -p "$there/libexec/emorizugu" && touch "$work/kept" && echo '../kept' >"$there/libexec/emorizugu/installed"
    ! ./install --remove "$there" && [ -e "$work/kept" ]
}

# A prefix with a blank: a compiler gets it in one piece.
blank() {
    local there="$work/a blank"
    ./install "$there" && grep -qxF "prefix=$there" "$there/lib/pkgconfig/emorizugu.pc" && "$there/bin/emorizugu" examples/month.msg | diff "$work/month" - || return 1
    # shellcheck disable=SC2016
    grep -qxF 'Cflags: -I"${prefix}/include"' "$there/lib/pkgconfig/emorizugu.pc" || return 1
    command -v pkg-config >/dev/null 2>&1 || return 0
    eval "gcc -std=c99 -Werror -o '$work/blank' examples/book.c examples/files.c $(PKG_CONFIG_PATH=$there/lib/pkgconfig pkg-config --cflags --libs emorizugu)" &&
        "$work/blank" examples/month.msg "$work/blank.book" && cmp "$work/blank.book" examples/month.book && ./install --remove "$there" && [ ! -e "$there" ]
}

# All that is there is on the list, and the other way round.
all_listed() {
    (cd "$prefix" && find . -mindepth 1 \( -type d -printf '%P/\n' -o -printf '%P\n' \) | sort) >"$work/found"
    { grep -vx './' "$prefix/libexec/emorizugu/installed" && echo libexec/emorizugu/installed; } | sort | diff - "$work/found"
}

documents() {
    local file
    for file in LICENSE docs/CAUSES.md docs/FORMAT.md docs/GLOSSARY.md docs/RULES.md; do
        cmp "$file" "$prefix/share/doc/emorizugu/${file##*/}" || return 1
    done
    (cd "$prefix/share/doc/emorizugu" && "$prefix/bin/desk" run examples/july.calls) | grep -q '^23 calls, none refused'
}

holds 'install' ./install "$prefix"
holds 'the program in place' sh -c "'$prefix/bin/desk' run examples/month.calls | grep -q '^13 calls, none refused'"
holds 'the man page in place' grep -q '^.TH DESK 1' "$prefix/share/man/man1/desk.1"
holds 'documents and examples in place' documents
holds 'all that is in place is on the list' all_listed
pkg_config
holds 'the hosts in C' in_c
holds 'the host in C++' in_cpp
holds 'the host in Python' in_python
holds 'NULL with length 0, a small stack' entries
holds "calls and their fields by name, short buffers, each entry's stack" calls && cat "$work/stacks"
holds 'the measurements of docs/MEASURED.md' times
emorizugu
holds 'modes under umask 077' readable
holds 'below DESTDIR, and taken away' below
holds 'what was there stays' others_stay
holds 'a list that names what lies outside' outside
holds 'a prefix with a blank' blank
holds 'taken away' ./install --remove "$prefix"
holds 'nothing is left' test ! -e "$prefix"
expect 'nothing to take away' 2 ./install --remove "$prefix" <<END
! install: nothing to take away: there is no $prefix/libexec/emorizugu/installed
END
finish
