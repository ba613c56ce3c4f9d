#!/usr/bin/env bash
# Makes the files of the samples anew: paper, blank.sheet and slip.sheet from their texts, key and marks by our own
# programs, which must have been built, and the archive too (make install does it). Usage: make.sh [FOLDER], where they
# go; without it, here. PROGRAMS=folder takes the programs key and mark from there.
# shellcheck disable=SC2086,SC2154 # lists of words are meant to be split; tools.sh gives them
set -eu
out=$(realpath "${1:-$(dirname "$0")}")
cd "$(dirname "$0")/.."
# shellcheck source=desk/tools.sh
. desk/tools.sh
need $cc $cc_packages
programs=$(realpath "${PROGRAMS:-$programs}")
work=$(mktemp -d)
trap 'rm -rf "$work"' EXIT
$cc $strict $link -o "$work/transcriber" desk/transcribe.c $archive

transcribe() { $run "$work/transcriber" "$@"; }

# program key|mark: runs it on the files of the work folder.
program() { (cd "$work" && $load "$programs/$1"); }

# make_sample FROM TO
make_sample() {
    mkdir -p "$2"
    transcribe paper "$1paper.txt" "$work/paper"
    transcribe sheet /dev/null "$2/blank.sheet"
    transcribe sheet "$1slip.txt" "$2/slip.sheet"
    rm -f "$work/key"
    program key
    cp "$work/paper" "$work/key" "$2"
    cp "$work/key" "$2/perfect.sheet"
    for sheet in blank perfect slip; do
        cp "$2/$sheet.sheet" "$work/sheet"
        echo "$sheet.sheet: $(program mark)"
    done > "$2/marks"
}

for folder in examples/*/; do make_sample "$folder" "$out/$(basename "$folder")"; done
