# Where the Rattle kit is, whether what was made of the crates is stale, and how a program is run. Sourced by night
# and by the tests, so it is POSIX sh; who sources it has `die`, which says what is wrong and ends.
#
# Programs are for x86-64: the kit's loader runs them, over the kit's C library.

command -v rt >/dev/null || die "rt is missing: put the kit's rt on the PATH; no Debian package has it."

kit=${RATTLE_HOME:-$(dirname "$(dirname "$(readlink -f "$(command -v rt)")")")}
tools=$kit/toolchain
loader=$tools/lib/ld-linux-x86-64.so.2
[ -x "$loader" ] || die "the kit has no loader for x86-64 programs at toolchain/lib."

is_stale() { # FILE: it is missing, or older than a crate's text; asked at the top of the repository
    [ ! -f "$1" ] || [ -n "$(find crates.txt crates -name out -prune -o -type f -newer "$1" -print -quit)" ]
}

become_program() { # PROGRAM WORDS..: in the place of this shell
    exec "$loader" --library-path "$tools/lib" "$@"
}

run_program() { # PROGRAM WORDS..
    (become_program "$@")
}
