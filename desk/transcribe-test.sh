#!/usr/bin/env bash
# Tries transcribe: what it shows gives the same bytes again; what is wrong is told by its line, or by its place in a
# file. Usage: transcribe-test.sh [COUNT [SEED]], of drawn papers and sheets. It needs no proof and no archive: transcribe
# runs under the sanitizers, with the plain routines in the archive's place. TRANSCRIBE="command" tries that one instead.
# shellcheck disable=SC2086,SC2154 # lists of words are meant to be split; tools.sh gives them
set -eu
cd "$(dirname "$0")/.."
# shellcheck source=desk/tools.sh
. desk/tools.sh
need $own_cc $own_cc_packages
work=$(mktemp -d)
trap 'rm -rf "$work"' EXIT
sane="-g -fsanitize=address,undefined -fno-sanitize-recover=all"
export ASAN_OPTIONS=detect_leaks=0 # nothing is allocated, and on some machines the search for leaks takes seconds a run
transcribe=${TRANSCRIBE:-$work/transcribe}
[ "${TRANSCRIBE:-}" ] || $own_cc $strict $sane $stand_in -o "$work/transcribe" desk/transcribe.c desk/plain.c
$own_cc $strict $sane -Idesk -o "$work/draw" desk/transcribe-test.c desk/generate.c desk/plain.c
root=$PWD
cd "$work"
trips=0 tries=0

fail() { echo "FAIL transcribe: $*"; exit 1; }

# trip paper|sheet FILE
trip() {
    trips=$((trips + 1))
    $transcribe show "$2" > shown.txt || fail "$2 is not shown"
    $transcribe "$1" shown.txt again || fail "what was shown of $2 is not taken"
    cmp -s "$2" again || fail "$2 is not the same again"
}

# writes paper|sheet TEXT HEX: the text gives these bytes after the header.
writes() {
    local skip=12 wanted got
    [ "$1" = paper ] || skip=6
    tries=$((tries + 1))
    printf '%b' "$2" > text
    $transcribe "$1" text file || fail "'$2' is not taken"
    wanted=$(tr -d ' ' <<< "${3,,}")
    got=$(tail -c +$((skip + 1)) file | od -An -v -tx1 | tr -d ' \n')
    [ "$got" = "$wanted" ] || fail "'$2' gives $got"
}

# shows TEXT [WANTED]: a paper with this event, and the sequences A and "B C", is shown so.
shows() {
    local shown
    tries=$((tries + 1))
    printf 'sequence A\nsequence "B C"\nsequence A\n%s\n' "$1" > text
    $transcribe paper text file || fail "'$1' is not taken"
    shown=$($transcribe show file | tail -n 1)
    [ "$shown" = "${2:-$1}" ] || fail "'$1' is shown as '$shown'"
}

# says paper|sheet TEXT COMPLAINT: nothing is written, and this is said.
says() {
    local said
    tries=$((tries + 1))
    printf '%b' "$2" > text
    rm -f file
    if said=$($transcribe "$1" text file 2>&1); then fail "'$2' is taken"; fi
    [ ! -e file ] || fail "'$2' is wrong, but a file is written"
    [ "$said" = "$3" ] || fail "of '${2:0:60}' it is said: $said"
}

# tells NUMBER: the drawn file of that number is broken where the plain routines say, as a paper and as a sheet.
tells() {
    tries=$((tries + 1))
    if $transcribe show "drawn/broken$1" > said 2>&1; then fail "drawn/broken$1 is shown"; fi
    sed -nE 's/^drawn.*: (bad[a-z]+): .* \(offset ([0-9]+)\)$/\1 \2/p' said | cmp -s - "drawn/places$1" \
        || fail "of drawn/broken$1 it is said: $(< said)"
}

# explains WORDS NUMBER [OFFSET] FILE: it gives these words for a refusal that mark or key printed.
explains() {
    local words=$1 said
    shift
    tries=$((tries + 1))
    said=$($transcribe refused "$@") || fail "refused $*: it has no words"
    [ "$said" = "$words" ] || fail "refused $*: the words are: $said"
}

# denies WORDS NUMBER [OFFSET] FILE: that is not the file's refusal; these words are.
denies() {
    local words=$1
    shift
    stops 1 refused "$@"
    [ "$(< said)" = "file: that is not this file's refusal; $words" ] || fail "refused $*: it is said: $(< said)"
}

# padded HEADER BYTES: the file is this header, in printf's words, and zeros up to so many bytes.
padded() {
    # shellcheck disable=SC2059 # the header is a format
    { printf "$1"; head -c "$2" /dev/zero; } | head -c "$2" > file
}

# said_length BYTES LENGTH: a paper of so many bytes is said to have that length.
said_length() {
    padded "$no_events" "$1"
    explains "badpaper: the length is 12 in the header and $2 in the file; with 0 events and 0 sequences it must be 12 (offset 10)" \
        15 10 file
}

# stops STATUS WORD..: with these words it ends with the status.
stops() {
    local wanted=$1 status=0
    shift
    tries=$((tries + 1))
    $transcribe "$@" > said 2>&1 || status=$?
    [ $status = "$wanted" ] || fail "$*: status $status"
}

# ---- round trips
for folder in "$root"/examples/*/; do
    trip paper "${folder}paper"
    for file in key blank.sheet perfect.sheet slip.sheet; do trip sheet "$folder$file"; done
done
count=${1:-300}
mkdir drawn
./draw drawn "$count" "${2:-1}"
for n in $(seq "$count"); do
    trip paper "drawn/paper$n"
    trip sheet "drawn/sheet$n"
    tells "$n"
done

# ---- texts and their bytes
zeros=00000000000000000000000000000000
writes paper "" ""
writes paper "# only a remark\n\n  \t \n" ""
writes paper "tick" "02000000 $zeros"
writes paper "tick\r\ntick # the second\r\n" "02000000 $zeros 02000000 $zeros"
writes paper "1: tick\n2: process 1: getproc" "02000000 $zeros 013A0001 $zeros"
writes paper "sequence AB\nprocess 258: lock D0=1 D1=0x203 D2=-1 D3=-2 A0=4h S=1" \
    "013E0102 0001 0203 FFFF FFFFFFFE 00000004 0001 4142 0000000000000000000000000000"
writes paper "sequence TABLE\nprocess 2: lock unshared conditional TABLE" \
    "013E0002 0000 0000 0003 00000005 00000000 0001 5441424C45 0000000000000000000000"
writes paper "sequence 0x00ff\nprocess 2: call 0Fh S=1" \
    "010F0002 00000000 00000000 00000000 0000 0001 00FF 0000000000000000000000000000"
writes paper "\xEF\xBB\xBFtick\ntick" "02000000 $zeros 02000000 $zeros" # a byte order mark
writes sheet "" ""
writes sheet "\xEF\xBB\xBF" ""
writes sheet "\xEF\xBB\xBF1: done" "$zeros"
writes sheet "done" "$zeros"
writes sheet "asleep\nended ended=1\n" "01000000 000000000000000000000000 02000000 000200000000000000000000"
writes sheet "refused deadlock\nrefused 12" "030C0000 000000000000000000000000 030C0000 000000000000000000000000"
writes sheet "refused full\nrefused order" "03140000 000000000000000000000000 031A0000 000000000000000000000000"
writes sheet "done D3=-1 A0=0x1000 woken=0,2 ended=15" "0000 0005 8000 0000 FFFFFFFF 00001000"
writes sheet "bytes 00 01 02 03 04 05 06 07 08 09 0a 0B 0c 0D 0e ff" "000102030405060708090a0b0c0d0eff"

# ---- the most that a paper may have
{ seq 64 | sed 's/.*/sequence S&/'; seq 999 | sed 's/.*/process &: getproc/'; echo "process 1000: lock shared S64"; } > most.txt
stops 0 paper most.txt most
[ "$(stat -c %s most)" = 21036 ] || fail "a paper of 1,000 events and 64 sequences has $(stat -c %s most) bytes"
[ "$($transcribe show most)" = "$(< most.txt)" ] || fail "a paper of 1,000 events and 64 sequences is shown as another"

# ---- events, and how they are shown
shows "process 2: lock unshared A"
shows "process 2: lock conditional shared \"B C\"" "process 2: lock shared conditional \"B C\""
shows "process 2: lock D2=1 D3=1 S=1" "process 2: lock unshared A"
shows "process 2: lock D2=1 D3=1 S=3"
shows "process 2: lock D2=1 D3=2 S=A"
shows "process 2: lock unshared D3=2 S=\"B C\"" "process 2: lock D2=1 D3=2 S=\"B C\""
shows "process 2: lock shared A D0=7" "process 2: lock D0=7 D3=1 S=A"
shows "process 2: unlock A"
shows "process 2: unlock unshared A"
shows "process 2: setprior D3=-40"
shows "process 2: setprior D3=-41" "process 2: setprior D3=4294967255"
shows "process 2: signal D2=5 A0=4096" "process 2: signal D2=5 A0=0x1000"
shows "process 2: call 3Ah" "process 2: getproc"
shows "process 0: getproc"
shows "process 3: tick"
shows "tick call 3Eh D2=1"
shows "process 2: take"
shows "process 2: report S=A"
shows "kind 9 call 01h D0=1"
shows "kind 2" "tick"

# ---- complaints
says paper "tick\n\n# x\nprocess 2: lok D2=1\n" "text: line 4: no call is named 'lok'"
says paper "process 2: lok\nprocess 2 take\n" "text: line 1: no call is named 'lok'
text: line 2: a colon is missing after the process, as in process 2: take"
says paper "take\n" "text: line 1: it is not said which process, as in process 2: take"
says paper "process 65536: take\n" "text: line 1: the process is 65536; it must be from 0 to 65535"
says paper "process two: take\n" "text: line 1: the process is 'two', which is no number"
says paper "process 2:\n" "text: line 1: a call is missing"
says paper "process 2: sleep 3\n" "text: line 1: no register is named '3'"
says paper "process 2: sleep D4=3\n" "text: line 1: no register is named 'D4'"
says paper "process 2: sleep D3 3\n" "text: line 1: D3 wants a value, as D3=1"
says paper "process 2: sleep D3=\n" "text: line 1: D3 is missing"
says paper "process 2: sleep D3=4294967296\n" \
    "text: line 1: D3 is 4294967296; it must be from -2147483648 to 4294967295"
says paper "process 2: sleep D2=65536\n" "text: line 1: D2 is 65536; it must be from -32768 to 65535"
says paper "process 2: sleep D3=1 D3=2\n" "text: line 1: D3 is given twice"
says paper "process 2: call 100h\n" "text: line 1: the call's number is 100h; it must be from 0 to 255"
says paper "kind 256\n" "text: line 1: the kind is 256; it must be from 0 to 255"
says paper "process 2: lock unshared TABLE\n" "text: line 1: no sequence is named 'TABLE'"
says paper "sequence T\nprocess 2: lock T\n" "text: line 2: say shared or unshared"
says paper "sequence T\nprocess 2: lock conditional T\n" "text: line 2: say shared or unshared"
says paper "sequence T\nprocess 2: lock shared unshared T\n" "text: line 2: shared and unshared do not go together"
says paper "sequence T\nprocess 2: lock shared T S=1\n" "text: line 2: S is given twice"
says paper "sequence T\nprocess 2: lock S=2\n" "text: line 2: there is no sequence 2: the paper has 1"
says paper "sequence T\nprocess 2: lock S=U\n" "text: line 2: no sequence is named 'U'"
says paper "tick\nsequence T\n" "text: line 2: sequences stand before the events"
says paper "sequence\n" "text: line 1: a sequence has 1 to 16 characters"
says paper "sequence ABCDEFGHIJKLMNOPQ\n" "text: line 1: a sequence has 1 to 16 characters"
says paper "sequence LEFT BIN\n" "text: line 1: 'BIN' is too much here"
says paper "sequence \"LEFT BIN\n" "text: line 1: the quotation mark is not closed"
says paper "sequence 0x414\n" "text: line 1: a sequence in hex has two digits for each of its 1 to 16 bytes"
says paper "sequence 0x4G\n" "text: line 1: 'G' is no hex digit"
says paper "sequence \xC3\x9F\n" \
    "text: line 1: a sequence with such a character is written in hex, as 0x5441424C45 for TABLE"
says paper "tick\n\xEF\xBB\xBFtick\n" "text: line 2: no call is named '"$'\xEF\xBB\xBF'"tick'"
says paper "2: tick\n3: tick\n" "text: line 1: this is event 1, not 2"
says paper "tick\001\n" "text: line 1: the line is too long, or this is no text"
says paper "$(printf '%1100d' 0)\n" "text: line 1: the line is too long, or this is no text"
says paper "$(seq 1001 | sed 's/.*/tick/')" "text: line 1001: a paper has at most 1000 events"
says paper "$(seq 1002 | sed 's/.*/tick/')" "text: line 1001: a paper has at most 1000 events
text: line 1002: a paper has at most 1000 events"
says paper "$(seq 65 | sed 's/.*/sequence S&/')" "text: line 65: a paper has at most 64 sequences"
says paper "$(seq 65 | sed 's/.*/sequence S&/')\nprocess 1: lock shared S64\nprocess 1: lock shared S65" \
    "text: line 65: a paper has at most 64 sequences
text: line 67: no sequence is named 'S65'"
says paper "$(seq 64 | sed 's/.*/sequence S&/')\ntick\nsequence S65" "text: line 66: sequences stand before the events"
says paper "process 2: lok\nsequence T\n" "text: line 1: no call is named 'lok'
text: line 2: sequences stand before the events"
says paper "1000: tick\ntick\n" "text: line 1: this is event 1, not 1000"
says paper "sequence T\nprocess 2: lock S=9\nprocess 2: lock S=65536\nprocess 2: lock S=-1\ntick\n" \
    "text: line 2: there is no sequence 9: the paper has 1
text: line 3: there is no sequence 65536: the paper has 1
text: line 4: there is no sequence -1: the paper has 1"
says sheet "done\nblank\n" "text: line 2: no answer is named 'blank'; the answers are done, asleep, ended, refused"
says sheet "refused\n" "text: line 1: the refusal is missing"
says sheet "refused lock\n" "text: line 1: no refusal is named 'lock'"
says sheet "refused unknown\n" "text: line 1: no refusal is named 'unknown'"
says sheet "refused 256\n" "text: line 1: the refusal is 256; it must be from 0 to 255"
says sheet "done D2=1\n" "text: line 1: an answer has no 'D2'"
says sheet "done woken=0,16\n" "text: line 1: a position is 16; it must be from 0 to 15"
says sheet "done woken=\n" "text: line 1: a position is missing"
says sheet "done D3=1 D3=1\n" "text: line 1: D3 is given twice"
says sheet "bytes 00 01\n" "text: line 1: byte 3 of 16 must be two hex digits"
says sheet "bytes 00 00 00 00 00 00 00 00 00 00 00 00 00 00 00 00 00\n" "text: line 1: '00' is too much here"
says sheet "1: done\n3: done\n4: done\n" "text: line 2: this is answer 2, not 3"
says sheet "1: dome\n2: done\n0: done\n4: done\n" \
    "text: line 1: no answer is named 'dome'; the answers are done, asleep, ended, refused
text: line 3: this is answer 3, not 0"
says sheet "$(seq 1001 | sed 's/.*/done/')" "text: line 1001: a sheet has at most 1000 answers"

# ---- words, and files that are not there or not laid out
stops 1
stops 1 show
stops 1 paper text
stops 1 paper nofile file
stops 1 paper . file
stops 1 show nofile
stops 1 show .
stops 1 show draw
stops 1 show "$root/examples/table/key" "$root/examples/table/paper"
[ "$(< said)" = "$root/examples/table/key: badpaper: the header says that the events start at 6; they must start at 12 (offset 4)" ] \
    || fail "a key for a paper: $(< said)"
stops 0 show "$root/examples/table/paper" "$root/examples/table/key"
printf 'tick\n' > text
stops 1 paper text nofolder/file
stops 1 paper draw file
for size in 1 5 11 12 13 32; do
    head -c "$size" "$root/examples/table/paper" > file
    stops 1 show file
done

# ---- refusals, as mark and key print them
no_events='\0\1\0\0\0\14\0\0\0\14\0\14' no_answers='\0\1\0\0\0\6'
length="badpaper: the length is 424 in the header and 423 in the file; with 19 events and 2 sequences it must be 424 (offset 10)"
head -c 423 "$root/examples/table/paper" > file
explains "$length" 15 10 file
explains "badsheet: the file has 423 bytes; with 19 answers it must have 310 (offset 2)" 17 2 file
for words in "15 0" "15 4" "15 30" "15 1" "15 423" 16; do denies "this is:"$'\n'"file: $length" $words file; done
cp "$root/examples/table/paper" file
for words in "15 0" "15 4" "15 30" 16; do denies "it has none" $words file; done
printf '\0\11' | dd of=file bs=1 seek=30 conv=notrunc status=none
explains "badpaper: event 1 names sequence 9, the paper has 2 (offset 30)" 15 30 file
cp "$root/examples/table/key" file
for words in "17 0" "17 2" "17 6"; do denies "it has none" $words file; done
padded "$no_events" 12
explains "blank: the paper has no events" 16 file
denies "this is:"$'\n'"file: blank: the paper has no events" 15 0 file
said_length 21036 21036
said_length 21037 "more than 21036"
said_length 30000 "more than 21036"
padded "$no_answers" 16006
explains "badsheet: the file has 16006 bytes; with 0 answers it must have 6 (offset 2)" 17 2 file
padded "$no_answers" 16007
explains "badsheet: the file has more than 16006 bytes; with 0 answers it must have 6 (offset 2)" 17 2 file
: > file
explains "badpaper: the file is empty; a paper has at least 12 bytes (offset 0)" 15 0 file
explains "badsheet: the file is empty; a sheet has at least 6 bytes (offset 0)" 17 0 file
denies "this is:"$'\n'"file: badpaper: the file is empty; a paper has at least 12 bytes (offset 0)" 15 7 file
for words in "" "15" "15 file" "16 0 file" "18 file" "12 file" "x file" "15 x file" "15 -1 file" "15 21037 file" "15 0 nofile" \
    "15 0 file file"; do
    stops 1 refused $words
done
echo "transcribe: $trips round trips, $tries other tries, 0 wrong"
