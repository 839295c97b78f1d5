#!/bin/sh
# examples.sh: holds what the commands of examples/day.sh say against examples/day.out, the blocks of
# examples/README.md against it too, and what examples/make-region writes against examples/region.fms.
set -u
root=$(cd "$(dirname "$0")/.." && pwd -P)
room=${TMPDIR:-/tmp}/fm-examples.$$
mkdir "$room" || exit 1
trap 'rm -rf "$room"' EXIT
trap 'exit 1' HUP INT TERM

passed=0 failed=0
hold() { # FILE STORED SENTENCE
    if cmp "$1" "$2"; then
        passed=$((passed + 1))
    else
        diff "$1" "$2" | sed 8q
        printf 'FAILED: %s\n' "$3"
        failed=$((failed + 1))
    fi
}

"$root/examples/make-region" >"$room/region.fms"
hold "$room/region.fms" "$root/examples/region.fms" "make-region writes another table than region.fms"
"$root/examples/day.sh" >"$room/day.out"
hold "$room/day.out" "$root/examples/day.out" "day.sh says something else than day.out"
awk '/^```/ { inside = !inside; next } inside' "$root/examples/README.md" >"$room/readme.out"
hold "$room/readme.out" "$root/examples/day.out" "the blocks of README.md are not day.out"
printf 'examples: %s passed, %s failed\n' "$passed" "$failed"
[ "$failed" -eq 0 ]
