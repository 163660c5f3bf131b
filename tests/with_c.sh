# Sourced by the tests that compile C, after tests/common.sh. The archive of crates/radio is for x86-64, and the
# kit's compiler makes x86-64 programs.

. ./kit.sh
need gcc gcc # for its headers alone
[ -f /usr/include/stdio.h ] || die "stdio.h is missing: install the Debian package libc6-dev."
[ -x "$tools/bin/clang" ] || die "the kit has no compiler for this machine, $(uname -m)."
archive=crates/radio/out/libradio.a

compile() { # SOURCE OUTPUT WORDS..: -c for an object, -S for assembly
    "$tools/bin/clang" --target=x86_64-linux-gnu -O2 -fPIE -Wall -Wextra -Wpedantic -Werror \
        -nostdinc -isystem "$(gcc -print-file-name=include)" \
        -isystem "/usr/include/$(gcc -print-multiarch)" -isystem /usr/include \
        -I include "${@:3}" "$1" -o "$2" || die "$1 does not compile."
}

link_program() { # PROGRAM OBJECTS..
    local lib=$tools/lib
    "$tools/bin/ld.lld" -pie -o "$1" "$lib"/{Scrt1,crti,crtbeginS}.o "${@:2}" \
        "$lib"/{libc.so.6,libc_nonshared.a,libgcc.a,crtendS.o,crtn.o} || die "$1 does not link."
}

make_archive() { # unless it is newer than all that it is made of
    is_stale "$archive" || return 0
    local log=target/radio.log
    mkdir -p target
    (cd crates/radio && rt lib) >"$log" 2>&1 || {
        cat "$log" >&2
        die "rt lib in crates/radio made no archive."
    }
}
