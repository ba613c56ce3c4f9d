#!/usr/bin/env bash
# Tries the archive, the programs, the samples, the demo and the installation from outside, as a user would; part of
# `make test`, after rt ci. tools.sh says what is used on which machine.
# shellcheck disable=SC2016,SC2086,SC2154 # backquotes are meant, and the words of $strict, $link, $run and $load are to be
# split; tools.sh gives them
set -eu
cd "$(dirname "$0")/.."
# shellcheck source=desk/tools.sh
. desk/tools.sh
unset PAPER SHEET KEY PREFIX DESTDIR
root=$PWD
work=$(mktemp -d)
declare -A running
trap 'kill "${running[@]}" 2> /dev/null || true; rm -rf "$work"' EXIT

fail() { echo "FAIL $*" >&2; exit 1; }

# last WORD..: runs a command, shows its last line, or all that it said if it failed.
last() {
    "$@" > "$work/log" 2>&1 || { cat "$work/log" >&2; fail "$*"; }
    tail -n 1 "$work/log"
}

# beside NAME WORD..: runs a command beside the tests that follow; joined NAME waits for it, and shows it as `last` does.
beside() {
    local name=$1
    shift
    "$@" > "$work/$name.log" 2>&1 &
    running[$name]=$!
}

joined() {
    wait "${running[$1]}" || { cat "$work/$1.log" >&2; fail "$1"; }
    unset "running[$1]"
    tail -n 1 "$work/$1.log"
}

# linked NAME FILE..: compiles a C program that links the archive.
linked() {
    local name=$1
    shift
    $cc $strict $link -o "$work/$name" "$@" $archive
}

# All that is missing is installed first: two commands beside each other cannot both do that.
build() {
    need $cc $cc_packages
    need $own_cc $own_cc_packages
    need cppcheck cppcheck
    need pkg-config pkg-config
    need groff groff-base
    beside transcribe desk/transcribe-test.sh
    make_archive quietly
    make_programs quietly
    linked desk desk/desk.c
    linked transcribe desk/transcribe.c
}

vectors() {
    linked test desk/test.c
    last $run "$work/test"
}

plain_model() {
    $own_cc $strict -o "$work/plain-test" desk/plain-test.c desk/plain.c
    last "$work/plain-test"
    linked compare desk/compare.c desk/compare-writer.c desk/generate.c desk/observe.c desk/plain.c
    $run "$work/compare" 600 1 || fail "compare 600 1"
}

# ---- the programs, in a folder of their own: what mark prints, and the bytes of the file that key writes

bytes() { printf '%b' "$(printf '%s' "$*" | tr -d ' ' | sed 's/../\\x&/g')"; }

prints() {
    local said
    tries=$((tries + 1))
    said=$($load "$root/$programs/$1" 2>&1) || said="$said (status $?)"
    [ "$said" = "$2" ] || fail "$1, $3: '$said', and '$2' is right"
}

keeps() {
    tries=$((tries + 1))
    bytes "$1" | cmp -s - key || fail "key, $2: the file is not as it should be"
}

zeros=00000000000000000000000000000000
example="0001 0002 000C 0000 0034 0034 013A0001 $zeros 02000000 $zeros"
answers="00000000000000000000000100000000 $zeros"

try_good_files() {
    bytes "$example" > paper
    bytes 0001 0000 0006 > sheet
    prints mark "total 2 right 0 missing 2 surplus 0 perfect no" "a blank sheet"
    prints key "" "the example"
    keeps "0001 0002 0006 $answers" "the example"
    cp key sheet
    prints mark "total 2 right 2 missing 0 surplus 0 perfect yes" "the key as a sheet"
    bytes "0001 0003 0006 $answers $zeros" > sheet
    prints mark "total 2 right 2 missing 0 surplus 1 perfect no" "an answer over"
}

try_missing_files() {
    prints mark "refused 15 0" "no files"
    prints key "refused 15 0" "no paper"
    bytes "$example" > paper
    prints mark "refused 17 0" "no sheet"
    mkdir sheet
    prints mark "refused 17 0" "a folder for a sheet"
    rmdir sheet
    rm paper
    mkdir paper
    prints mark "refused 15 0" "a folder for a paper"
    rmdir paper
}

try_bad_files() {
    bytes 0001 0000 000C 0000 000C 000C > paper
    prints mark "refused 16" "a paper without events"
    bytes AA55 > key
    prints key "refused 16" "a paper without events"
    keeps AA55 "a refusal leaves an old file as it was"
    head -c 200000 /dev/zero > paper
    prints mark "refused 15 0" "an overlong paper"
    bytes "$example" > paper
    head -c 200000 /dev/zero >> paper
    prints mark "refused 15 10" "a paper with more behind it"
    bytes "$example" > paper
    head -c 200000 /dev/zero > sheet
    prints mark "refused 17 0" "an overlong sheet"
    bytes 0001 0003 0006 "$answers" > sheet
    prints mark "refused 17 2" "a sheet one answer short"
    bytes 0001 0002 00 > sheet
    prints mark "refused 17 5" "a sheet too short for its header"
}

try_bad_papers() {
    bytes 0001 0002 000C 00 > paper
    prints mark "refused 15 7" "a paper too short for its header"
    prints key "refused 15 7" "a paper too short for its header"
    bytes "${example% *}" > paper
    prints mark "refused 15 10" "a paper cut off"
    prints key "refused 15 10" "a paper cut off"
    bytes "${example:0:-4} 0001" > paper
    prints mark "refused 15 50" "the second event names a sequence"
    { bytes 0001 03E8 000C 0000 4E2C 4E2C; head -c 19998 /dev/zero; bytes 0001; } > paper
    prints mark "refused 15 20010" "the last of 1000 events names a sequence"
    prints key "refused 15 20010" "the last of 1000 events names a sequence"
    keeps AA55 "a refusal leaves an old file as it was"
}

programs() {
    tries=0
    mkdir "$work/programs"
    cd "$work/programs"
    try_missing_files
    try_good_files
    try_bad_files
    try_bad_papers
    cd "$root"
    echo "programs: $tries checks, 0 wrong"
}

# ---- the desk program: its lines, its words on standard error, its status

# desk_says STATUS OUT ERR WORD..
desk_says() {
    local status=0 wanted=$1 out=$2 err=$3
    shift 3
    tries=$((tries + 1))
    $run "$work/desk" "$@" > out 2> err || status=$?
    [ $status = "$wanted" ] || fail "desk $*: status $status, and $wanted is right"
    [ "$(< out)" = "$out" ] || fail "desk $*: '$(< out)', and '$out' is right"
    [ "$(< err)" = "$err" ] || fail "desk $*, on standard error: '$(< err)', and '$err' is right"
}

# The longest legal paper and sheet, and each with one byte more.
desk_files() {
    bytes "$example" > paper
    bytes 0001 0000 0006 > blank
    bytes "0001 0002 0006 $answers" > full
    bytes 0001 0000 000C 0000 000C 000C > none
    { bytes 0001 03E8 0006; head -c 16000 /dev/zero; } > thousand
    { bytes 0001 03E8 000C 0040 4E2C 522C; head -c 21024 /dev/zero; } > events
    { cat thousand; bytes 00; } > long
    { cat events; bytes 00; } > overlong
}

# paper_place OFFSET WORDS BYTES..: desk says of a paper with these bytes where it is broken; sheet_place, of a sheet.
paper_place() {
    bytes "${@:3}" > broken
    desk_says 2 "broken: refused 15 $1 (badpaper: $2 (offset $1))" "" broken blank
}

sheet_place() {
    bytes "${@:3}" > broken
    desk_says 1 "broken: refused 17 $1 (badsheet: $2 (offset $1))"$'\n'"$none_marked" "" paper broken
}

paper_places() {
    local events="013A0001 $zeros 02000000 $zeros" names="0200 0000 0000 0000 0000 00000000 00000000"
    paper_place 1 "the file has only 1 byte; a paper has at least 12" 00
    paper_place 11 "the file has only 11 bytes; a paper has at least 12" 0001 0000 000C 0000 000C 00
    paper_place 0 "the version is 2; it must be 1" 0002 0002 000C 0000 0034 0034 "$events"
    paper_place 2 "the event count is 1001; it must be from 0 to 1000" 0001 03E9 000C 0000 0034 0034 "$events"
    paper_place 4 "the header says that the events start at 6; they must start at 12" 0001 0002 0006 0000 0034 0034 "$events"
    paper_place 6 "the sequence count is 65; it must be from 0 to 64" 0001 0002 000C 0041 0034 0034 "$events"
    paper_place 8 "the header says that the sequences start at 52; with 1 event they must start at 32" \
        0001 0001 000C 0000 0034 0034 "$events"
    paper_place 10 "the length is 51 in the header and 52 in the file; with 2 events and 0 sequences it must be 52" \
        0001 0002 000C 0000 0034 0033 "$events"
    paper_place 10 "the length is 84 in the header and 83 in the file; with 2 events and 2 sequences it must be 84" \
        0001 0002 000C 0002 0034 0054 "$events $zeros ${zeros:2}"
    paper_place 10 "the length is 51 in the header and 52 in the file; with 2 events and 1 sequence it must be 68" \
        0001 0002 000C 0001 0034 0033 "$events"
    paper_place 30 "event 1 names sequence 1, the paper has 0" 0001 0002 000C 0000 0034 0034 "$names 0001 $names FFFF"
    paper_place 250 "event 12 names sequence 9, the paper has 3" 0001 000D 000C 0003 0110 0140 \
        "$(printf "$names 0003 %.0s" {1..11}) $names 0009 $names 0004 $zeros $zeros $zeros"
}

sheet_places() {
    sheet_place 1 "the file has only 1 byte; a sheet has at least 6" 00
    sheet_place 5 "the file has only 5 bytes; a sheet has at least 6" 0001 0000 00
    sheet_place 0 "the version is 9552; it must be 1" 2550 4446 2D31
    sheet_place 2 "the answer count is 1001; it must be from 0 to 1000" 0001 03E9 0006
    sheet_place 2 "the file has 38 bytes; with 3 answers it must have 54" 0001 0003 0006 "$answers"
    sheet_place 2 "the file has 6 bytes; with 1 answer it must have 22" 0001 0001 0006
    sheet_place 4 "the header says that the answers start at 12; they must start at 6" 0001 0002 000C "$answers"
}

desk() {
    local blank="blank: total 2 right 0 missing 2 surplus 0 perfect no" full="full: total 2 right 2 missing 0 surplus 0 perfect yes"
    local thousand="thousand: total 2 right 1 missing 0 surplus 998 perfect no"
    local none_marked="all: sheets 1 marked 0 perfect 0 refused 1 right 0"
    local long="long: refused 17 2 (badsheet: the file has more than 16006 bytes; with 1000 answers it must have 16006 (offset 2))"
    local gone="gone: refused 17 0 (badsheet: the file is empty; a sheet has at least 6 bytes (offset 0))"
    tries=0
    mkdir "$work/files"
    cd "$work/files"
    desk_files
    desk_says 64 "" "usage: desk PAPER [SHEET...]"
    desk_says 0 "all: sheets 0 marked 0 perfect 0 refused 0 right 0" "" paper
    desk_says 0 "all: sheets 0 marked 0 perfect 0 refused 0 right 0" "" events
    desk_says 0 "$blank"$'\n'"$full"$'\n'"$thousand"$'\n'"all: sheets 3 marked 3 perfect 1 refused 0 right 3" "" paper blank full thousand
    desk_says 1 "$long"$'\n'"$full"$'\n'"all: sheets 2 marked 1 perfect 1 refused 1 right 2" "" paper long full
    desk_says 1 "$gone"$'\n'"$none_marked" "desk: gone: No such file or directory (it counts as empty)" paper gone
    desk_says 2 "none: refused 16 (blank: the paper has no events)" "" none blank
    desk_says 2 "overlong: refused 15 10 (badpaper: the length is 21036 in the header and more than 21036 in the file; \
with 1000 events and 64 sequences it must be 21036 (offset 10))" "" overlong blank
    desk_says 2 ".: refused 15 0 (badpaper: the file is empty; a paper has at least 12 bytes (offset 0))" \
        "desk: .: Is a directory (it counts as empty)" . blank
    paper_places
    sheet_places
    cd "$root"
    echo "desk: $tries checks, 0 wrong"
}

# ---- the samples: made anew they are the same, and the desk program finds the marks that mark does

samples() {
    local folder
    joined transcribe
    TRANSCRIBE="$run $work/transcribe" last desk/transcribe-test.sh 30 2
    examples/test.sh "${RULES:-/work/shared/01-scope.md}" || fail "examples/test.sh"
    for folder in examples/*/; do
        (cd "$folder" && $run "$work/desk" paper ./*.sheet) | sed '$d; s|^./||' | cmp -s - "${folder}marks" || fail "desk on $folder"
    done
}

# ---- the README's paper by hand: its key is the answers of its table

by_hand() {
    mkdir "$work/by-hand"
    cd "$work/by-hand"
    sed -n '/^## A paper by hand$/,/^## /s/^    //p' "$root/README.md" > paper.txt
    sed -nE '/^## A paper by hand$/,/^## /s/^\| ([0-9]+) \| `([^`]*)` \|.*/\1: \2/p' "$root/README.md" > sheet.txt
    $run "$work/transcribe" paper paper.txt paper
    $run "$work/transcribe" sheet sheet.txt sheet
    $load "$root/$programs/key"
    cmp key sheet || fail "the README's paper by hand: its answers are not its key"
    cd "$root"
    echo "README: a paper by hand, $(wc -l < "$work/by-hand/sheet.txt") answers, 0 wrong"
}

# ---- the demo: the marks of the samples again, and a user's own files

# demo_says WHAT LINE WORD..: runs the demo with these settings; it must print this line.
demo_says() {
    local what=$1 line=$2
    shift 2
    tries=$((tries + 1))
    env "$@" examples/demo.sh > "$work/log" 2>&1 || true
    grep -qxF -- "$line" "$work/log" || { cat "$work/log"; fail "demo, $what: '$line' is not there"; }
}

# The crates proved are counted, and at the end they are all of crates.txt.
demo_counts() {
    local all last
    all=$(grep -c '^[^#]' crates.txt)
    last=$(grep -E ' proved [0-9]+ of [0-9]+: ' "$work/demo" | tail -n 1)
    tries=$((tries + 1))
    [[ $last == *" proved $all of $all: "* ]] || fail "make demo: its last count of crates proved is '$last', and there are $all"
}

# What mark and key print of a refused file, and the words.
demo_refusals() {
    local off="refused 15 10 (badpaper: the length is 424 in the header and 423 in the file; with 19 events and 2 sequences it must be 424 (offset 10))"
    head -c 423 examples/table/paper > "$work/cut"
    head -c 300 examples/table/key > "$work/cut.sheet"
    : > "$work/none.txt"
    demo_says "a broken paper, its key" "$work/cut: $off" PAPER="$work/cut" KEY="$work/no key"
    demo_says "a broken paper, marked" "$work/cut: $off" PAPER="$work/cut" SHEET="$work/cut.sheet $work/cut.sheet" KEY="$work/no key"
    [ "$(grep -c refused "$work/log")" = 1 ] || { cat "$work/log"; fail "demo: a broken paper is told more than once"; }
    [ ! -e "$work/no key" ] || fail "demo: a broken paper has a key"
    demo_says "a broken sheet" \
        "$work/cut.sheet: refused 17 2 (badsheet: the file has 300 bytes; with 19 answers it must have 310 (offset 2))" \
        PAPER=examples/table/paper SHEET="$work/cut.sheet"
    demo_says "a paper without events" "$work/none.txt: refused 16 (blank: the paper has no events)" PAPER="$work/none.txt"
}

demo() {
    local folder line own="$work/my own.sheet" mark
    tries=0
    rm -f $proved
    examples/demo.sh > "$work/demo" 2>&1 || { cat "$work/demo"; fail "make demo"; }
    demo_counts
    for folder in examples/*/; do
        while read -r line; do
            tries=$((tries + 1))
            grep -qxF -- "$folder$line" "$work/demo" || fail "make demo: '$folder$line' is not there"
        done < "${folder}marks"
    done
    cp examples/table/slip.sheet "$own"
    mark=$(sed -n 's/^slip.sheet: //p' examples/table/marks)
    demo_says "one's own sheet" "$own: $mark" PAPER=examples/table/paper SHEET="$own"
    demo_says "two in words" "examples/table/slip.txt: $mark" PAPER=examples/table/paper.txt \
        SHEET="examples/table/blank.sheet examples/table/slip.txt"
    demo_says "a key" "The key is in the file $work/my key." PAPER=examples/table/paper.txt KEY="$work/my key"
    cmp -s "$work/my key" examples/table/key || fail "demo: the key is another"
    demo_says "no paper" "Which paper is it? Add PAPER=file." SHEET="$own"
    demo_says "no file" "There is no file nofile." PAPER=nofile SHEET="$own"
    demo_refusals
    echo "demo: $tries checks, 0 wrong"
}

# ---- the installation: a C program that sees the installed files only, the programs and the manual pages

# quoted NUMBER: the example of that number in the manual page.
quoted() {
    awk -v number="$1" '/^\.EX$/ { n++; next } /^\.EE$/ && n == number { exit } n == number' desk/man/brinefeather.3 \
        | sed 's/\\e/\\/g'
}

# What a manual page and the README quote is desk/example.c, and for the page desk/example-writer.c too.
examples_are_quoted() {
    quoted 1 | cmp - desk/example.c || fail "brinefeather(3) quotes another example than desk/example.c"
    quoted 3 | cmp - desk/example-writer.c || fail "brinefeather(3) quotes another example than desk/example-writer.c"
    sed -n '/^```c$/,/^```$/p' README.md | sed '1d; $d' | cmp - desk/example.c \
        || fail "the README quotes another example than desk/example.c"
}

# The header and the pkg-config file have one version.
version_is_one() {
    local header package
    header=$(sed -n 's/^#define BRINEFEATHER_VERSION //p' "$1/include/brinefeather.h")
    package=$(PKG_CONFIG_PATH="$1/lib/pkgconfig" pkg-config --modversion brinefeather)
    [ "${header:-none}" = "$package" ] || fail "the header's version is '$header', the pkg-config file's '$package'"
}

examples_compile() {
    local flags name
    flags=$(PKG_CONFIG_PATH="$1/lib/pkgconfig" pkg-config --cflags --libs brinefeather)
    mkdir "$work/elsewhere"
    cp desk/example.c desk/example-writer.c "$work/elsewhere"
    cd "$work/elsewhere"
    for name in example example-writer; do $cc $strict $link -o $name $name.c $flags; done
    $run ./example | cmp - <(printf '0 of 2 right\n2 of 2 right\nrefused 17 (badsheet), offset 2\n') \
        || fail "the example against the installed files"
    $run ./example-writer | cmp - <(echo "148 bytes, 6 events, 1 sequence") || fail "the writer's example"
    cmp paper "$work/by-hand/paper" || fail "the writer's example does not build the README's paper by hand"
    cd "$root"
}

installed_programs_run() {
    local line
    line=$($run "$1/bin/desk" examples/table/paper examples/table/perfect.sheet | tail -n 1)
    [[ $line == "all: sheets 1 marked 1 perfect 1 "* ]] || fail "the installed desk: '$line'"
    $run "$1/bin/transcribe" show examples/table/paper > /dev/null || fail "the installed transcribe"
    mkdir "$work/desk-top"
    cp examples/table/paper "$work/desk-top/paper"
    cp examples/table/key "$work/desk-top/sheet"
    line=$(cd "$work/desk-top" && $load "$1/bin/mark")
    [[ $line == *"perfect yes" ]] || fail "the installed mark: '$line'"
    (cd "$work/desk-top" && $load "$1/bin/key" && cmp -s key sheet) || fail "the installed key"
}

# Each page is there, is named as its program is, and groff has nothing to say of it.
pages_read_well() {
    local page said
    for page in mark.1 key.1 desk.1 transcribe.1 brinefeather.3; do
        [ -s "$1/man${page##*.}/$page" ] || fail "no manual page $page"
        said=$(groff -ww -z -man -Tutf8 "$1/man${page##*.}/$page" 2>&1)
        [ -z "$said" ] || fail "manual page: $said"
    done
}

# Such a prefix would spoil the pkg-config file.
odd_prefix_is_refused() {
    local odd said
    for odd in '/a b' '/a&b' '/a|b' '/a\b'; do
        said=$(PREFIX=$odd DESTDIR=$work/odd desk/install.sh 2>&1) && fail "make install with PREFIX=$odd"
        [[ $said == "PREFIX must not "*"$odd" ]] || fail "make install with PREFIX=$odd: '$said'"
    done
}

installation() {
    local prefix=$work/prefix
    examples_are_quoted
    odd_prefix_is_refused
    quietly make --no-print-directory install PREFIX="$prefix"
    version_is_one "$prefix"
    examples_compile "$prefix"
    installed_programs_run "$prefix"
    pages_read_well "$prefix/share/man"
    echo "installation: $(find "$prefix" -type f | wc -l) files, the examples compiled and ran"
}

# ---- the documents

# cited: the numbers of the decisions that "decision N" and "decisions N, M and K to L" cite, also across lines.
cited() {
    find README.md docs desk crates -name out -prune -o -type f -exec sed -E 's/^ *(\/\/|#|\*) *//' {} + | tr -s '\n ' ' ' \
        | grep -aoiE 'decisions? [0-9]+((,| and|, and| to) [0-9]+)*' | tr -d , | awk '{
            for (i = 2; i <= NF; i++)
                if ($i == "to") for (n = $(i - 1); n < $(i + 1); n++) print n
                else if ($i != "and") print $i
        }' | sort -u
}

documents() {
    local said
    said=$(LC_ALL=C.UTF-8 grep -rnE '^.{201}' docs | cut -d: -f1,2)
    [ -z "$said" ] || fail "lines longer than 200 characters:"$'\n'"$said"
    said=$(comm -23 <(cited) <(sed -n 's/^\([0-9]*\)\. .*/\1/p' docs/DECISIONS.md | sort -u))
    [ -z "$said" ] || fail "cited and not in docs/DECISIONS.md: decision" $said
    echo "documents: no line longer than 200 characters, $(cited | wc -l) decisions cited, all there"
}

build
beside c desk/check-c.sh
vectors
plain_model
programs
desk
samples
by_hand
demo
installation
documents
joined c
