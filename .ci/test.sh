#!/usr/bin/env bash
# `make test`: rt ci, then the desk's tests, which want what rt ci proved and built. Its last line is that of rt ci, 'N passed,
# M failed', printed if all passed or if rt ci failed.
set -eu -o pipefail
cd "$(dirname "$0")/.."
log=$(mktemp)
trap 'rm -f "$log"' EXIT

# The last line of rt ci, and again without what may stand behind its numbers.
verdict() {
    local last plain
    last=$(tail -n 1 "$log")
    plain=$(grep -oE '^[0-9]+ passed, [0-9]+ failed' <<< "$last") || plain=$last
    echo "$last"
    [ "$last" = "$plain" ] || echo "$plain"
}

rt ci 2>&1 | tee "$log" | sed -u '$d' || { verdict; exit 1; }
# rt ci passes with an edit that it could not apply, compile or read; it counts them in its line `rt: ok`.
ok=$(grep '^rt: ok' "$log") || { echo "FAIL rt ci does not say 'rt: ok'" >&2; exit 1; }
[[ ! $ok =~ ,\ [1-9][0-9]*\ bad ]] || { echo "FAIL must-fail edits that say nothing: $ok" >&2; exit 1; }
desk/test.sh
verdict
