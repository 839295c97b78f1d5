#!/bin/sh
# crowd.sh VERSION COUNT: writes a table of that version with that many stations, right or wrong, to standard output. The ids
# go from 1; all are of class A on channel 201, within 3 km, and no two at one site.
set -u
LC_ALL=C
export LC_ALL
printf '%b' "$(awk -v version="$1" -v count="$2" '
    # A number in two bytes, as escapes for printf.
    function two(n) { return sprintf("\\0%03o\\0%03o", int(n / 256), n % 256) }
    BEGIN {
        printf "%s", "FMS" two(version) "\\0000" two(count)
        for (i = 1; i <= count; i++)
            printf "%s", two(0) two(i) two(201) two(0) two(0) two(i % 64) two(0) two(int(i / 64))
    }' </dev/null)"
