#!/usr/bin/env bash
# Tries the samples: made anew they are the same; the events and answers of each story page are those of the paper and
# the key; the page's last line is the slip's mark; and what the page quotes stands in the rules.
# Usage: test.sh [DOCUMENT], the path of 01-scope.md; without it no quotation is looked up. PROGRAMS is as in make.sh.
# shellcheck disable=SC2016,SC2086,SC2154 # backquotes and lists of words are meant; tools.sh gives the lists
set -eu
document=$(realpath -m "${1:-/none}")
cd "$(dirname "$0")/.."
# shellcheck source=desk/tools.sh
. desk/tools.sh
work=$(mktemp -d)
trap 'rm -rf "$work"' EXIT
examples/make.sh "$work"
$cc $strict $link -o "$work/transcribe" desk/transcribe.c $archive
lines=0 papers=0

fail() { echo "FAIL $*"; exit 1; }

# The page's lines are "1. `event` → `answer`."
events_of() { sed -nE 's/^([0-9]+)\. `(.*)` → `.*`\.$/\1: \2/p' "$1README.md"; }
answers_of() { sed -nE 's/^([0-9]+)\. `.*` → `(.*)`\.$/\1: \2/p' "$1README.md"; }

for folder in examples/*/; do
    name=$(basename "$folder")
    for file in paper key blank.sheet perfect.sheet slip.sheet marks; do
        cmp -s "$folder$file" "$work/$name/$file" || fail "examples/$name/$file is not what examples/make.sh makes"
    done
    { grep '^sequence ' "${folder}paper.txt" || true; events_of "$folder"; } > "$work/events.txt"
    answers_of "$folder" > "$work/answers.txt"
    $run "$work/transcribe" paper "$work/events.txt" "$work/paper"
    $run "$work/transcribe" sheet "$work/answers.txt" "$work/sheet"
    cmp -s "$work/paper" "${folder}paper" || fail "examples/$name/README.md: its events are not those of the paper"
    cmp -s "$work/sheet" "${folder}key" || fail "examples/$name/README.md: its answers are not those of the key"
    mark=$(tail -n 1 "${folder}marks")
    [ "$(tail -n 1 "${folder}README.md")" = "    $mark" ] || fail "examples/$name/README.md: the mark is not $mark"
    grep -q '^blank.sheet: total .* right 0 ' "${folder}marks" || fail "examples/$name/marks: the blank sheet"
    grep -q '^perfect.sheet: .* perfect yes$' "${folder}marks" || fail "examples/$name/marks: the perfect sheet"
    lines=$((lines + $(wc -l < "$work/answers.txt")))
    papers=$((papers + 1))
done
examples/check-quotes.sh "$document"
echo "samples: $papers papers and their $((3 * papers)) sheets made anew, $lines lines of the story pages right"
