#!/bin/sh
# What docs/PROMISES.md (or a file that is named) cites is there:
# - every name in backquotes stands in the crates (a word of their code, specifications or proofs, or the name of a
#   must-fail edit) or is a file of the repository;
# - a name that is cited with its file (`law` in `file`, `law`, `file`, several laws before one file, or `file`: `law`) is
#   declared in that very file;
# - an edit that is cited with its crate in brackets is an edit of that crate, and the columns of edits name edits.
# Prints what is not so, with its line, and at the end how many such pairs there are.
set -u
LC_ALL=C
export LC_ALL
page=$(cd "$(dirname "${1:-$0}")" && pwd -P)/$(basename "${1:-$0}")
cd "$(dirname "$0")/.." || exit 1
[ $# -gt 0 ] || page=docs/PROMISES.md
words=${TMPDIR:-/tmp}/yervughat-words.$$
trap 'rm -f "$words"' EXIT
trap 'exit 1' HUP INT TERM
{
    find crates -name out -prune -o \( -name '*.rt' -o -name '*.antt' \) -exec cat {} + | tr -cs "[:alnum:]_·′÷ℕℤ-" '\n'
    find crates -name '*.edit' | sed 's|.*/||; s|\.edit$||'
    ls crates
} | sort -u >"$words"
bad=0
# shellcheck disable=SC2016
for name in $(tr '\n' ' ' <"$page" | grep -o '`[^`]*`' | tr -d '`' | tr ' ' '\n' | sort -u); do
    case $name in
    */*) [ ! -e "$name" ] || continue ;;
    *) ! grep -qxF -- "$name" "$words" || continue ;;
    esac
    bad=1
    grep -nF -- "$name" "$page" | while IFS=: read -r at _; do printf '%s:%s: there is no %s\n' "$page" "$at" "$name"; done
done

# shellcheck disable=SC2016
{
    ls -d crates/*
    find crates -path '*/must-fail/*.edit'
} | awk -v page="$page" '
    function wrong(text) { print page ":" at ": " text; failed = 1 }

    # Reads which names a file declares: at its top, in its modules, records and data, but not those of a where of a proof.
    function read_file(file,  line, indent, inner, word, n, i) {
        was_read[file] = 1
        inner = -1
        while ((getline line < file) > 0) {
            sub(/ *--.*/, "", line)
            if (line ~ /^ *$/) continue
            match(line, /^ */)
            indent = RLENGTH
            if (inner >= 0 && indent > inner) continue
            inner = -1
            if (line ~ /^ *where$/) { inner = indent; continue }
            n = split(line, word, " ")
            if (file ~ /\.rt$/) {
                for (i = 1; i < n; i++)
                    if (word[i] ~ /^(fn|struct|enum|const)$/ && match(word[i + 1], /^[A-Za-z0-9_]+/))
                        declared[file, substr(word[i + 1], 1, RLENGTH)] = 1
                continue
            }
            for (i = 1; i < n && word[i] ~ /^(pub|abbrev|unfoldable)$/; i++) { }
            if (word[i] ~ /^(record|data)$/) declared[file, word[i + 1]] = 1
            else if (word[i + 1] == ":") declared[file, word[i]] = 1
        }
        close(file)
    }

    function declares(file, name) {
        laws++
        if (!was_read[file]) read_file(file)
        if (!((file, name) in declared)) wrong("`" name "` is not declared in " file)
    }

    # Reads the names of a text with their files. The parts of it are text and name in turn.
    function read_pairs(text,  part, n, i, j) {
        n = split(text, part, "`")
        for (i = 2; i <= n; i += 2) {
            if (part[i] !~ /^crates\/.*\.(antt|rt)$/) continue
            if (part[i - 1] ~ /^( in | of |, )$/)
                for (j = i - 2; j > 1 && part[j] !~ /\//; j -= 2) {
                    declares(part[i], part[j])
                    if (part[j - 1] !~ /^(, | of |,? and |,? (and )?(its|the) [a-z]+ )$/) break
                }
            if (part[i + 1] == ": " || (part[i - 1] ~ /(^|[^a-z])In $/ && part[i + 1] == ", "))
                for (j = i + 2; j <= n && part[j] !~ /\//; j += 2) {
                    declares(part[i], part[j])
                    if (part[j + 1] !~ /^(, | to |,? and )$/) break
                }
        }
    }

    # Reads a text whose brackets may hold the crates of the edit before, a file, or a text of their own.
    function read_text(text,  before, inside, after, edit, name, n, i) {
        while (match(text, /\([^()]*\)/)) {
            before = substr(text, 1, RSTART - 1); inside = substr(text, RSTART + 1, RLENGTH - 2); after = substr(text, RSTART + RLENGTH)
            if (inside ~ /^in `[^`]*`$/) { text = before inside after; continue }
            sub(/ $/, "", before)
            if (inside ~ /^`[^`]*`(, `[^`]*`)*$/ && match(before, /`[^`]*`$/)) {
                edit = substr(before, RSTART + 1, RLENGTH - 2)
                n = split(inside, name, "`")
                for (i = 2; i <= n; i += 2) {
                    if (!(edit in is_edit || name[i] in is_crate)) continue
                    in_brackets++
                    if (!((name[i], edit) in edits)) wrong("`" edit "` is no edit of `" name[i] "`")
                }
            }
            read_pairs(inside)
            text = before after
        }
        read_pairs(text)
        return text
    }

    function read_paragraph() {
        at = begun
        if (paragraph != "") read_text(paragraph)
        paragraph = ""
    }

    FNR == NR {
        n = split($0, part, "/")
        if (n == 2) { is_crate[part[2]] = 1; next }
        sub(/\.edit$/, "", part[n])
        is_edit[part[n]] = 1
        edits[part[2], part[n]] = 1
        next
    }
    /^\|/ {
        read_paragraph()
        at = FNR
        cells = split($0, cell, "|")
        if (!in_table) { column = 0; for (i = 1; i <= cells; i++) if (cell[i] == " Edits ") column = i }
        in_table = 1
        for (i = 1; i <= cells; i++) {
            rest = read_text(cell[i])
            if (i != column) continue
            n = split(rest, part, "`")
            for (j = 2; j <= n; j += 2) if (!(part[j] in is_edit)) wrong("`" part[j] "` is no edit")
        }
        next
    }
    { in_table = 0 }
    /^ *$/ || /^#/ { read_paragraph(); next }
    { if (paragraph == "") begun = FNR; paragraph = paragraph (paragraph == "" ? "" : " ") $0 }
    END {
        read_paragraph()
        print "promises: " laws + 0 " names with their file, " in_brackets + 0 " edits with their crate"
        exit failed
    }' - "$page" || bad=1
exit $bad
