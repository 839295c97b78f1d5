#!/bin/sh
# What the seal on the programs' bytes rests on (README, "What is not proved"): one place reads and one writes, only `streams` opens
# the words of `seal`, and everybody passes the one mark of a program on as it is.
set -u
cd "$(dirname "$0")/.." || exit 1
bad=0
wrong() { # SENTENCE
    printf 'marks: %s\n' "$1"
    bad=1
}
# The code of crates, without comments.
code() { # CRATES
    for crate in "$@"; do cat "crates/$crate/src/"*.rt; done | sed 's|//.*||'
}
# How often a pattern is met.
count() { # PATTERN
    grep -oE "$1" | wc -l
}

outside=$(code subjects asking lines telling programs fm_check fm_arrange fm_change fm_study fm_reason)
writing='write_all|libc::write|io::(write|print)|print(ln)?!' reading='read_full|libc::read|io::read' other='libc::|os::|std::(io|fs|net|os)|HostRuntime|extern'
[ "$(printf '%s' "$outside" | count "$writing|$reading|$other")" -eq 0 ] || wrong 'bytes are read or written outside of streams'
[ "$(code streams | count "$writing")" -eq 1 ] || wrong 'streams writes at more than one place'
[ "$(code streams | count "$reading")" -eq 1 ] || wrong 'streams reads at more than one place'
[ "$(code streams | count "$other")" -eq 0 ] || wrong 'streams reads or writes in another way'
[ "$(grep -E ':.* seal( |$)' crates.txt)" = 'streams: seal io' ] || wrong 'a crate besides streams stands on seal'
[ "$(grep -rE 'unfoldable +pub +use' crates/streams/specs crates/streams/proofs | wc -l)" -eq 0 ] || wrong 'streams passes the words of seal on to be opened'
[ "$(printf '%s' "$outside" | count 'streams::read\(')" -eq 1 ] || wrong 'a program reads at more than one place'

# A mark is the last parameter of a function, named in its promise, and the last argument where such a function is called; hand moves
# it on; run makes it and lends it, once.
[ "$(grep -E ':.* streams( |$)' crates.txt | sed 's/:.*//' | xargs)" = 'telling programs' ] || wrong 'a crate besides telling and programs stands on streams'
marked=$(code streams telling programs | tr -s ' \n' '  ' | sed 's/( /(/g; s/, )/)/g')
[ "$(printf '%s' "$marked" | count '\<use [^;]* as ')" -eq 0 ] || wrong 'something is used under another name'
takers=$(printf '%s' "$marked" | grep -oE 'fn [a-z_]+\(([^()]*, )?mark: &mut usize\)' | sed 's/^fn //; s/(.*//' | paste -sd '|' -)
rest=$(printf '%s' "$marked" | sed -E "s/\<use [^;]*;//g; s/fn [a-z_]+\(([^()]*, )?mark: &mut usize\)//g; s/mark\.(old|new)//g; s/\<($takers)\((([^()]|\([^()]*\))*, )?mark\)//g")
[ "$(printf '%s' "$rest" | count '\*mark = mark\.wrapping_add\(text\.len\(\)\);')" -eq 1 ] || wrong 'a mark is moved on at more than one place'
[ "$(printf '%s' "$rest" | count 'let mut mark: usize = 0;')" -eq 1 ] || wrong 'marks are made at more than one place'
[ "$(printf '%s' "$rest" | count '&mut mark\)')" -eq 1 ] || wrong 'a mark is lent at more than one place'
[ "$(printf '%s' "$rest" | count '\<mark\>')" -eq 4 ] || wrong 'a mark is used in another way than passed on'
calls=$(printf '%s' "$marked" | sed -E "s/\<use [^;]*;//g; s/fn [a-z_]+\(([^()]*, )?mark: &mut usize\)//g")
[ "$(printf '%s' "$calls" | count "\\<($takers)\\(")" -eq $(($(printf '%s' "$calls" | count '[(,] ?mark\)') + 1)) ] || wrong 'one call takes the mark of another'
# What takes a mark is given that of its caller; run alone, which has none, gives its own.
[ "$(printf '%s' "$rest" | count "[^.]\\<($takers)\\>|\\.($takers)\\(")" -eq 1 ] || wrong 'bytes are handed over at another mark'

[ "$bad" -eq 0 ] && printf 'marks: ok\n'
exit "$bad"
