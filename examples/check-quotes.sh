#!/usr/bin/env bash
# Usage: check-quotes.sh DOCUMENT. Does every quotation of the story pages stand in document 01, word for word?
# What stands in backquotes is no quotation. Without the document, which is not in this repository, none is looked up.
# shellcheck disable=SC2016 # the backquotes are meant
set -eu
document=$(realpath -m "${1:?the path of 01-scope.md}")
cd "$(dirname "$0")"
[ -r "$document" ] || { echo "quotations not looked up: no document 01 here"; exit 0; }
rules=$(tr -s '[:space:]' ' ' < "$document")
quotes=0 wrong=0
for page in */README.md; do
    while IFS= read -r quote; do
        quotes=$((quotes + 1))
        [[ $rules == *"${quote:1:-1}"* ]] || { echo "examples/$page: not in the rules: $quote"; wrong=$((wrong + 1)); }
    done < <(sed 's/`[^`]*`//g' "$page" | tr -s '[:space:]' ' ' | grep -o '"[^"]*"')
done
echo "story pages: $quotes quotations, $wrong wrong"
[ "$wrong" = 0 ] && [ "$quotes" -gt 0 ]
