# shellcheck shell=sh
# Where rt leaves what it makes of a crate, from the repository's folder: below the crate's own out/. The Rust build files, which link the same archives, say it again
# in one line each.

# The static library of a crate, which `rt lib` in the crate's folder makes. `rt ci` takes it away.
archive_of() { # crate
    printf 'crates/%s/out/lib%s.a\n' "$1" "$1"
}

# The program of a crate, which `rt run` in the crate's folder makes, and `rt ci` too.
program_of() { # crate
    printf 'crates/%s/out/%s\n' "$1" "$1"
}
