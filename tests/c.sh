#!/bin/sh
# c.sh: compiles examples/ask.c, as C and as C++, against include/fms.h and target/staticlib/libfms.a, holds what it prints
# against examples/ask.out, asks it about as many stations as fms.h has room for, all of them short, and about one that is
# entered twice, and sees that the archive asks for no function but memcpy and memset. Skips with a line where a compiler, an
# x86-64 machine or the archive is not to be had.
set -u
root=$(cd "$(dirname "$0")/.." && pwd -P)
archive=$root/target/staticlib/libfms.a
cc=${CC:-cc}
cxx=${CXX:-c++}
skip() {
    printf 'c: skipped, %s\n' "$1"
    exit 0
}
[ "$(uname -m)" = x86_64 ] || skip "libfms.a links into x86-64 programs only"
command -v "$cc" >/dev/null 2>&1 || skip "there is no C compiler ($cc)"
if [ ! -f "$archive" ]; then
    command -v rt >/dev/null 2>&1 || skip "target/staticlib/libfms.a is not built, and there is no rt"
    said=$("$root/tools/staticlib" 2>&1 </dev/null)
    [ -f "$archive" ] || {
        printf '%s\n' "$said"
        printf 'c: FAILED, tools/staticlib wrote no target/staticlib/libfms.a\n'
        exit 1
    }
fi

room=${TMPDIR:-/tmp}/fm-c.$$
mkdir "$room" || exit 1
trap 'rm -rf "$room"' EXIT
trap 'exit 1' HUP INT TERM

# Prints each command after a `$`, what it says, and its status where it is not 0.
asks() { # PROGRAM
    while IFS= read -r words; do
        printf '$ ask %s\n' "$words"
        # shellcheck disable=SC2086
        (cd "$root" && "$1" $words) 2>&1 </dev/null || printf 'status %s\n' $?
    done <<'ASKS'
examples/region.fms 270 3 3 150312 -166830
examples/region.fms 271 0 3 149400 -165600
examples/region.fms 256 7 3 150312 -166830
examples/region.fms 256 7 3 150312 -166830 0 1
examples/region.fms 256 7 3 150312 -166830 0 2
examples/region.fms 229 5 3 150312 -166830 0 1
examples/region.fms 229 5 3 150312 -166830 0 2
examples/region.fms 256 7 3 150312 -166830 1019
examples/region.fms 256 7 3 150312 -166830 1019 2
examples/region.fms 270 3 3 150312 -166830 1161
examples/region.fms 270 3 3 150312 -166830 1160
examples/region.fms 220 3 3 150312 -166830
examples/region.fms 236 2 3 150312 -166830
examples/region.fms 236 3 3 150312 -166830 0 0
examples/region.fms 236 3 3 150312 -166830 0 3
examples/region.fms 236 3 3 150312 -166830 0 4294967295
examples/region.fms 236 2 3 150312 -166830 0 3
examples/region.fms 236 3 3 270001 -166830 1 3
examples/region.fms 236 3 3 270001 -166830 1 2
examples/region.fms 236 3 3 150312 -166830 1 2
examples/day.sh 270 3 3 150312 -166830
examples/absent.fms 270 3 3 150312 -166830
ASKS
}

# As many stations as a table holds, and whether a program answers on it: all are short, their lines end with the last, the
# reason follows with its record and its limit, and 78 free channels.
sh "$root/tests/crowd.sh" 2 4000 >"$room/full.fms"
answers_full() { # PROGRAM
    [ "$("$1" "$room/full.fms" 254 0 3 0 0 | sed -n '1p;4001p;4002p;$=')" = 'short 4000
4000 2 10
1 0 10 3 1
4082' ]
}

# One station under two ids, the second time fixed, and what a program answers on it before it looks at what is asked.
printf '%b' 'FMS\0000\0001\0000\0000\0002' >"$room/twice.fms"
printf '%b' '\0000\0000\0000\0007\0000\0322\0000\0000\0000\0000\0000\0001\0377\0377\0377\0377' >>"$room/twice.fms"
printf '%b' '\0000\0000\0000\0011\0000\0322\0000\0001\0000\0000\0000\0001\0377\0377\0377\0377' >>"$room/twice.fms"
answers_twice() { # PROGRAM
    [ "$("$1" "$room/twice.fms" 220 8 4 270001 0 5 3)" = 'refused 27 1' ]
}

# Compiles ask.c with a compiler's words, and holds what it prints.
passed=0 failed=0
try() { # NAME COMPILER WORDS
    name=$1
    shift
    if ! "$@" -I "$root/include" -o "$room/ask" "$root/examples/ask.c" -x none "$archive" >"$room/said" 2>&1; then
        sed 1q "$room/said"
        printf 'FAILED: ask.c does not compile as %s\n' "$name"
        failed=$((failed + 1))
    elif ! { asks "$room/ask" >"$room/out" && cmp "$room/out" "$root/examples/ask.out"; }; then
        printf 'FAILED: ask as %s prints something else than examples/ask.out\n' "$name"
        failed=$((failed + 1))
    elif ! answers_full "$room/ask"; then
        printf 'FAILED: ask as %s has other answers on 4,000 stations\n' "$name"
        failed=$((failed + 1))
    elif ! answers_twice "$room/ask"; then
        printf 'FAILED: ask as %s has another answer on a station that is entered twice\n' "$name"
        failed=$((failed + 1))
    else
        passed=$((passed + 1))
    fi
}
try C "$cc" -std=c99 -Wall -Wextra -Werror -x c
if command -v "$cxx" >/dev/null 2>&1; then
    try C++ "$cxx" -Wall -Wextra -Werror -x c++
else
    printf 'c: as C++ skipped, there is no C++ compiler (%s)\n' "$cxx"
fi
# What the archive asks of whoever links it.
if command -v nm >/dev/null 2>&1; then
    asked=$(nm -u "$archive" | sed -n 's/^ *U //p' | sort -u | grep -vxE 'memcpy|memset' | tr '\n' ' ')
    if [ -z "$asked" ]; then
        passed=$((passed + 1))
    else
        printf 'FAILED: libfms.a asks for other functions than memcpy and memset: %s\n' "$asked"
        failed=$((failed + 1))
    fi
else
    printf 'c: what the archive asks for skipped, there is no nm\n'
fi
printf 'c: %s passed, %s failed\n' "$passed" "$failed"
[ "$failed" -eq 0 ]
