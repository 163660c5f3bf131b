# Sourced first by every test, tests/NAME/run: the test then stands at the root of the repository.

cd "$(dirname "$0")"
name=${PWD##*/}
cd ../..

die() {
    printf '%s: FAILED: %s\n' "$name" "$*" >&2
    exit 1
}

need() { # COMMAND PACKAGE
    command -v "$1" >/dev/null || die "$1 is missing: install the Debian package $2."
}

# What a COMMAND.. writes on each stored night is held to the stored output; sets how many nights there are.
run_stored_nights() {
    local night
    nights=0
    for night in crates/nights_main/data/*.in; do
        "$@" <"$night" | cmp - "${night%.in}.out" || die "the stored night $night."
        nights=$((nights + 1))
    done
    [ "$nights" -ge 60 ] || die "only $nights stored nights."
}
