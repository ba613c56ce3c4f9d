#!/usr/bin/env bash
# Does the old text of each must-fail edit stand in exactly one line of the file that it edits? In a second; rt ci, which
# asks it too, proves all crates first.
set -eu
cd "$(dirname "$0")/.."
bad=0
for edit in crates/*/must-fail/*.edit; do
    file=
    while IFS= read -r line; do
        case $line in
        "file: "*) file=${edit%/must-fail/*}/${line#file: } ;;
        "old: "*)
            lines=$(grep -cF -- "${line#old: }" "$file") || true
            [ "$lines" = 1 ] || { echo "$edit: in ${lines:-no} lines of $file: '${line#old: }'" >&2; bad=1; }
            ;;
        esac
    done < "$edit"
done
exit $bad
