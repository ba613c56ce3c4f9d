#!/usr/bin/env bash
# Counts the places of the design pass (docs/DESIGN-PASS.md) in the checkout that it is given, or in this one: a line for each form.
set -eu
cd "${1:-$(dirname "$0")/..}"

# found POINT FORM PATTERN: how many lines of the code have the pattern.
found() {
    printf '%s | %s | %s\n' "$1" "$2" "$(cat crates/*/src/*.rt | grep -cE "$3" || true)"
}

found 1 'an own enum of the shape of Option or Result' '^(pub )?enum (Field|Read|Keyed|Marked|Added)\b'
found 1 'a constant that stands for a kind or a refusal' \
    '^(pub )?const (BAD|ASLEEP|TRAP|NOT|PRIV|NO|HELD|LOCKED|DEADLOCK|LCK|DONE|CALLER|REFUSED|ABORT|IGNORE|AWAKE|FOR_|BY_)[A-Z_]*: u(8|32) = [0-9]'
found 1 'a number for a kind, as a field or a parameter' '\b(kind|number|sleep|wake|reason|field|ids): (u8|u32|usize)\b'
found 1 'a flag beside a value' '^ +(pub )?(named|apart|by_hand): bool'
found 1 'a lent array that an answer or a refusal is written into' '^ +out: &mut Reply|\(out: &mut Reply'
found 3 'a loop with while' '\bwhile '
found 3 'a counted step' '^ +(i|j|k|a|w|f) (\+|-)= 1;'
found 3 'elements one by one' '^ +\w+\[[^]]*\] = \w+\[[0-9]+\];|^ +\w+\[[0-9]\] = '
found 4 'From, TryFrom, Display' '^impl (fmt::Display|From|TryFrom)'
found 4 'bytes by division or product' '/ 256|/ 65536|\* 256|\* 65536'
found 5 'both arrays as two parameters' '^    t: &mut Cells,|m: &(mut )?Numbers, t: &(mut )?Cells'
found 5 'the length of a lent answer, in a requires' 'length (out.old|a.now) ≡ 4'
found 5 'a place below 16, in a requires' '[ij] < PLACES'
found 5 'at most 33 cells, in a requires' 'requires.*(used|n|k|last) (≤|<) CELLS'
found 6 'one of several parallel arrays, as a parameter' '(lows|highs|lens|owners|shared|pids|sleeps): &'
found 6 'a count beside an array or a slice' '(used|live|n): usize[,)]'
