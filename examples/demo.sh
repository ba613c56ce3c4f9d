#!/usr/bin/env bash
# `make demo`: proves everything, builds the programs and marks the sample sheets beside this file, or your own files:
#
#   make demo PAPER=file SHEET="file .."   marks your sheets
#   make demo PAPER=file [KEY=file]        prints the key of your paper in words, and keeps it as the file KEY
#
# A file that ends in .txt is in words: it is transcribed first (see transcribe(1)). Behind a refusal, the words in
# brackets say what is wrong and where.
# shellcheck disable=SC2086,SC2154 # the words of $load, of a refusal and of package lists are meant to be split; tools.sh
# gives the lists
set -eu
root=$(realpath "$(dirname "$0")/..")
work=$(mktemp -d)
trap 'rm -rf "$work"' EXIT
PAPER=${PAPER:-} SHEET=${SHEET:-} KEY=${KEY:-}

stop() { echo "$*" >&2; exit 2; }

# SHEET is one file, whatever its name, or several names with spaces between.
ask() {
    sheets=()
    [ "$PAPER" ] || [ -z "$SHEET$KEY" ] || stop "Which paper is it? Add PAPER=file."
    if [ -e "$SHEET" ]; then sheets=("$SHEET"); else read -r -d '' -a sheets <<< "$SHEET" || true; fi
    for file in ${PAPER:+"$PAPER"} "${sheets[@]}"; do
        [ -f "$file" ] || stop "There is no file $file."
        [ -r "$file" ] || stop "The file $file cannot be read."
    done
}

build() {
    echo "Proving the rules and the code and building the programs: minutes the first time, seconds after that .."
    (cd "$root" && prove_all && make_programs prove)
    echo "Proved."
}

# Before the proofs, when there may be no archive yet, transcribe has the plain routines: so it only looks texts over.
build_reader() {
    need $own_cc $own_cc_packages
    $own_cc $strict $stand_in -o "$work/reader" "$root/desk/transcribe.c" "$root/desk/plain.c"
    transcriber="$work/reader"
}

build_transcribe() {
    need $cc $cc_packages
    (cd "$root" && make_archive prove)
    $cc $strict $link -o "$work/transcribe" "$root/desk/transcribe.c" "$root/$archive"
    transcriber="$run $work/transcribe"
}

transcribe() { $transcriber "$@"; }

# take_in paper|sheet FILE COPY: a copy of the file, in bytes.
take_in() {
    case $2 in
    *.txt) transcribe "$1" "$2" "$work/$3" || exit 1 ;;
    *) cat "$2" > "$work/$3" ;;
    esac
}

take_all_in() {
    local number
    take_in paper "$PAPER" paper
    for number in "${!sheets[@]}"; do take_in sheet "${sheets[number]}" "sheet$number"; done
}

# program mark|key: runs it in the folder of its files.
program() { (cd "$work" && $load "$root/$programs/$1"); }

# in_words LINE: what mark or key printed, and what a refusal means.
in_words() {
    local file=paper
    [[ $1 == refused* ]] || { echo "$1"; return; }
    [[ $1 != "refused 17 "* ]] || file=sheet
    echo "$1 ($(transcribe $1 "$work/$file"))"
}

# A line for each sheet. If the paper is refused, one line says so, and that is all.
mark_all() {
    local number said
    for number in "${!sheets[@]}"; do
        mv "$work/sheet$number" "$work/sheet"
        said=$(program mark)
        if [[ $said == "refused 15 "* || $said == "refused 16" ]]; then
            echo "$PAPER: $(in_words "$said")"
            exit
        fi
        echo "${sheets[number]}: $(in_words "$said")"
    done
}

samples() {
    local folder
    cd "$root"
    for folder in examples/*/; do
        echo
        head -n 1 "${folder}README.md" | sed 's/^#* *//'
        PAPER=${folder}paper sheets=("$folder"*.sheet)
        take_all_in
        mark_all
    done
    echo
    echo "Your own: make demo PAPER=file SHEET=file   (examples/README.md says how to write them)"
}

write_key() {
    local said
    said=$(program key)
    if [ "$said" ]; then echo "$PAPER: $(in_words "$said")"; return; fi
    echo "$PAPER: its key, $(stat -c %s "$work/key") bytes. Each event and the right answer:"
    transcribe show "$work/paper" "$work/key"
    if [ "$KEY" ]; then
        cat "$work/key" > "$KEY"
        echo "The key is in the file $KEY."
    else
        echo "KEY=file keeps the key in that file, SHEET=file marks a sheet."
    fi
}

ask
# shellcheck source=desk/tools.sh
. "$root/desk/tools.sh"
if [ -z "$PAPER" ]; then
    build
    samples
else
    build_reader
    take_all_in # a slip in a text is told before the proofs begin
    build
    build_transcribe
    take_all_in
    mark_all
    if [ ${#sheets[@]} = 0 ] || [ "$KEY" ]; then write_key; fi
fi
