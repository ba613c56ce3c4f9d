#!/usr/bin/env bash
# Holds all C of the project to this: no warning, nothing from cppcheck, clean under the sanitizers (for transcribe.c
# transcribe-test.sh sees to that). Part of desk/test.sh.
# What links the archive runs with it under both sanitizers on x86-64. Elsewhere it does so twice: for this machine
# under both, with the plain C routines in place of the archive's, and for x86-64 with the archive, where the emulator
# bears only the one for undefined behaviour. And compare is tried on routines that are wrong.
# shellcheck disable=SC2086,SC2154 # lists of words are meant to be split; tools.sh gives them
set -eu
cd "$(dirname "$0")/.."
# shellcheck source=desk/tools.sh
. desk/tools.sh
work=$(mktemp -d)
trap 'rm -rf "$work"' EXIT
mapfile -t files < <(find desk examples -name '*.c' | sort)
both="-std=c11 -g -O1 -fsanitize=address,undefined -fno-sanitize-recover=all"
traps="-std=c11 -g -O1 -fsanitize=undefined -fsanitize-undefined-trap-on-error"
hasty="$own_cc $both -O0 -Idesk"
as_archive="-Dplain_mark=brinefeather_mark -Dplain_key=brinefeather_key -Dplain_add_sequence=brinefeather_add_sequence \
    -Dplain_add_event=brinefeather_add_event -Dstate_fresh=other_fresh -Dstate_event=other_event"
runs=0

warnings() {
    need $own_cc $own_cc_packages
    for file in "${files[@]}"; do $own_cc $strict -Idesk -c -o /dev/null "$file"; done
}

static_check() {
    need cppcheck cppcheck
    cppcheck --enable=warning,style,performance,portability --inline-suppr --error-exitcode=1 --quiet --std=c11 -Idesk "${files[@]}"
}

# clean STATUS WORD..: what it prints is shown unless it ends with this status. The search for leaks takes four seconds,
# so it is asked for (leaks=1) once for each program.
clean() {
    local wanted=$1 status=0
    shift
    ASAN_OPTIONS=abort_on_error=1:detect_leaks=${leaks:-0} UBSAN_OPTIONS=abort_on_error=1 "$@" > "$work/said" 2>&1 || status=$?
    runs=$((runs + 1))
    # shellcheck disable=SC2053 # a pattern
    [[ $status == $wanted ]] || { echo "FAIL under the sanitizers, status $status: $*" >&2; tail -n 30 "$work/said" >&2; exit 1; }
}

# with_archive RUN COMPILE ARCHIVE: tries what calls the archive's routines.
with_archive() {
    $2 -o "$work/test" desk/test.c desk/plain.c $3
    $2 -o "$work/compare" desk/compare.c desk/compare-writer.c desk/generate.c desk/observe.c desk/plain.c $3
    $2 -o "$work/desk" desk/desk.c desk/plain.c $3
    leaks=1 clean 0 $1 "$work/test"
    leaks=1 clean "[01]" $1 "$work/compare" 30 1 # 1: so few papers do not reach all
    head -c 200000 /dev/zero > "$work/long"
    leaks=1 clean 1 $1 "$work/desk" examples/table/paper examples/table/*.sheet examples/table/paper nofile examples "$work/long"
    clean 2 $1 "$work/desk" examples/table/blank.sheet
    clean 2 $1 "$work/desk" "$work/long"
    clean 64 $1 "$work/desk"
}

sanitizers() {
    if [ "$machine" = x86_64 ]; then
        with_archive "" "$own_cc $both" $archive
    else
        with_archive "" "$own_cc $both" "$stand_in"
        with_archive "$run" "$cc $traps $link" $archive
    fi
    $own_cc $both -o "$work/plain-test" desk/plain-test.c desk/plain.c
    leaks=1 clean 0 "$work/plain-test"
}

# wrong CHANGE: with this change of the plain routines, in the archive's place or in their own, compare tells, by its first
# paper or by the files that it has beside papers, and ends well.
wrong() {
    local side
    sed "$1" desk/plain.c > "$work/wrong.c"
    cmp -s desk/plain.c "$work/wrong.c" && { echo "FAIL nothing is changed by $1" >&2; exit 1; }
    $hasty $as_archive -o "$work/wrong-archive" "$work"/{wrong.c,compare.o,compare-writer.o,generate.o,observe.o,plain.o}
    $hasty -o "$work/wrong-plain" "$work"/{wrong.c,compare.o,compare-writer.o,generate.o,observe.o,archive.o}
    for side in archive plain; do
        clean 1 "$work/wrong-$side" 1 1
        grep -q '^DIFFERENT paper ' "$work/said" || { echo "FAIL compare says nothing of this, in the $side side: $1" >&2; exit 1; }
    done
}

wrong_models() {
    local file
    for file in compare compare-writer generate observe plain; do $hasty -c -o "$work/$file.o" "desk/$file.c"; done
    $hasty $as_archive -c -o "$work/archive.o" desk/plain.c
    wrong 's/MOST_EVENTS = 1000/MOST_EVENTS = 999/'
    wrong 's/return R_NOROOM/return 21/'
    wrong 's/return SHEET_HEADER .*/return UINT64_MAX;/'
    wrong 's/an->number = .*/an->number = 200;/'
    wrong_offsets
    wrong_writers
}

# The last broken field told, in a header and of the events; the field behind it; a short file told at 0; a sheet of
# wrong length told at 4; the offset dropped.
wrong_offsets() {
    wrong 's/(size_t i = 0; i < fields; i++)/(size_t i = fields; i-- > 0;)/'
    wrong 's/(size_t i = 0; i < p->events; i++)/(size_t i = p->events; i-- > 0;)/'
    wrong 's/refused_at(number, 2 \* i)/refused_at(number, 2 * (i + 1))/'
    wrong 's/EVENT \* i + SEQUENCE_NUMBER/EVENT * (i + 1) + SEQUENCE_NUMBER/'
    wrong 's/refused_at(R_BADPAPER, len)/refused_at(R_BADPAPER, 0)/'
    wrong 's/refused_at(R_BADSHEET, len)/refused_at(R_BADSHEET, 0)/'
    wrong 's/ && whole;/;/; s/== SHEET_HEADER;/== SHEET_HEADER \&\& whole;/'
    wrong 's/return number + 65536 .*/return number;/'
}

# Sequences not moved up; moved from the wrong end, where bytes are overwritten before they are moved; the length field one
# event behind; a refusal that writes into the header; order ahead of badpaper, full ahead of order, noroom ahead of full.
wrong_writers() {
    local of_sequence='/^uint64_t plain_add_sequence/,/^}/' of_event='/^uint64_t plain_add_event/,/^}/'
    wrong 's/memcpy(buffer + sequence_offset,/memcpy(buffer + sequence_offset - (p->events ? EVENT : 0),/'
    wrong 's/^    memcpy(buffer + PAPER_HEADER,/    for (size_t i = 0; p->events \&\& i < SEQ * p->sequences; i++)\
        buffer[sequence_offset + i] = buffer[sequence_offset - EVENT + i];\
&/; s/^    memcpy(buffer + sequence_offset,/    if (!p->events)\
&/'
    wrong 's/(buffer + 10, (uint16_t)length)/(buffer + 10, (uint16_t)(length - (p->events ? EVENT : 0)))/'
    wrong 's/^    if (length > room)/    if (room >= PAPER_HEADER)\
        write_two(buffer + 2, (uint16_t)p->events);\
&/'
    wrong "$of_sequence"'s/^    if (refusal)/    if (writer >> 16 \& 0xFFFF)\
        return R_ORDER;\
&/'
    wrong "$of_event"'s/^    if (refusal)/    if (event_len >= EVENT \&\& read_two(event + SEQUENCE_NUMBER) > (writer \& 0xFFFF))\
        return R_ORDER;\
&/'
    wrong "$of_sequence"'s/^    if (p.events > 0)/    if (p.sequences == MOST_SEQUENCES)\
        return R_FULL;\
&/'
    wrong "$of_event"'s/^    if (read_two(new/    if (p.events == MOST_EVENTS)\
        return R_FULL;\
&/'
    wrong "$of_event"'s/^    if (p.events == MOST_EVENTS)/    if (paper_len < PAPER_HEADER + EVENT * (p.events + 1) + SEQ * p.sequences)\
        return R_NOROOM;\
&/'
    wrong_items
    wrong_buffers
}

# The new event first and the first one last; a short item filled up with ones; the last sequence may not be named; the writer's
# length one off; a buffer exactly long enough is too short; 63 sequences are all.
wrong_items() {
    wrong 's/memcpy(p.event\[p.events\], new, EVENT);/memcpy(p.event[p.events], p.event[0], EVENT); memcpy(p.event[0], new, EVENT);/'
    wrong 's/memset(piece, 0, size)/memset(piece, 1, size)/'
    wrong 's/(new + SEQUENCE_NUMBER) > p.sequences/(new + SEQUENCE_NUMBER) >= p.sequences + (p.sequences == 0)/'
    wrong 's/(uint64_t)length << 32/(uint64_t)(length - 1) << 32/'
    wrong 's/if (length > room)/if (length >= room)/'
    wrong 's/p.sequences == MOST_SEQUENCES/p.sequences >= MOST_SEQUENCES - 1/'
}

# The counts not compared; the sequence numbers not looked at; a paper with no events yet not taken; the upper half of the
# first writer read; an offset told; the rest of the buffer cleared.
wrong_buffers() {
    wrong 's/return old->events == events .*/return 1;/'
    wrong '/^static int read_old_paper/,/^}/s/read_paper(/read_paper_header(/'
    wrong 's/refusal != 0 \&\& refusal != R_BLANK/refusal != 0/'
    wrong 's/if ((writer & 0xFFFFFFFF) == 0)/if (writer == 0)/'
    wrong 's/        return R_BADPAPER;/        return refused_at(R_BADPAPER, 2);/'
    wrong 's/^    return (uint64_t)length << 32/    memset(buffer + length, 0, room - length);\
&/'
}

warnings
static_check
sanitizers
wrong_models
echo "C: ${#files[@]} files without a warning, nothing from cppcheck; $runs runs clean under the sanitizers"
