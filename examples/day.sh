#!/bin/sh
# day.sh: a desk's day on the table of Vell. Prints each command after a `$` and then what it says. It runs them in a
# folder of its own, which it removes, so that the new tables are left nowhere.
set -u
root=$(cd "$(dirname "$0")/.." && pwd -P)
room=${TMPDIR:-/tmp}/fm-day.$$
mkdir "$room" || exit 3
trap 'rm -rf "$room"' EXIT
trap 'exit 3' HUP INT TERM
cd "$room" && ln -s "$root/fm" fm && ln -s "$root/examples" examples || exit 3

# Has fm build what is missing, so that the day below is answers alone.
./fm show examples/region.fms >/dev/null && ./fm check examples/region.fms 221 A II 0 0 >/dev/null &&
    ./fm arrange examples/region.fms A II 0 0 >/dev/null && ./fm why examples/region.fms 221 A II 0 0 >/dev/null &&
    ./fm distance 0 0 0 0 >/dev/null || exit 3

while IFS= read -r line; do
    printf '$ %s\n' "$line"
    sh -c "$line" 2>&1 </dev/null
done <<'DAY'
./fm show examples/region.fms | sed -n 1,6p
./fm check --help | sed -n 1,4p
./fm check examples/region.fms 270 C3 II 41-45-12N 046-20-30W
./fm arrange examples/region.fms C3 II 41-45-12N 046-20-30W
./fm why examples/region.fms 257 C3 II 41-45-12N 046-20-30W
./fm arrange --raw examples/region.fms C3 II 41-45-12N 046-20-30W | sed -n 1,3p
./fm add examples/region.fms early.fms 3001 270 C3 II 41-45-12N 046-20-30W || echo "status $?"
./fm move examples/region.fms moved.fms 1161 276
./fm add moved.fms evening.fms 3001 270 C3 II 41-45-12N 046-20-30W
./fm check evening.fms 271 A II 41-30-00N 046-00-00W
./fm distance 41-45-12N 046-20-30W 40-57-30N 046-10-00W
./fm check evening.fms 272 B I 40-34-00N 042-31-00W
./fm check evening.fms 272 B I 40-34-00N 042-31-00W --aside 1100
./fm withdraw evening.fms without.fms 1100
./fm add without.fms tower.fms 1100 272 B I 40-34-00N 042-31-00W
./fm withdraw tower.fms tomorrow.fms 1009
./fm add tomorrow.fms twice.fms 3001 236 C3 II 41-45-12N 046-20-30W || echo "status $?"
./fm check tomorrow.fms 236 B II 41-45-12N 046-20-30W || echo "status $?"
./fm show tomorrow.fms | sed -n '1p;$p'
./fm check examples/region.fms 235 C3 II 41-45-12N 046-20-30W
./fm check examples/region.fms 235 C3 II 41-45-12N 046-20-30W --standard 2
./fm why examples/region.fms 257 C3 II 41-45-12N 046-20-30W --standard 2
./fm add examples/region.fms protected.fms 3002 235 C3 II 41-45-12N 046-20-30W || echo "status $?"
printf 'FMS\000\001\000\000\000' >nobody.fms
./fm add nobody.fms strait.fms 7 250 A II 51-52-00N 179-59-51W
./fm distance 51-52-00N 179-59-59E 51-52-00N 179-59-51W
./fm why strait.fms 250 A II 51-52-00N 179-59-59E
DAY
