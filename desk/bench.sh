#!/usr/bin/env bash
# Measures the archive's routines against plain C and writes docs/PERFORMANCE.md's figures and docs/performance.svg.
# Usage: [ARCHIVE=libbrinefeather.a] desk/bench.sh [--check] [--quick]
#   ARCHIVE   an archive that is there already; else `rt lib` makes it, in crates/brinefeather_c
#   --check   the exit status is 1 if a bar is missed
#   --quick   a few seconds, less exact; writes no page
# shellcheck disable=SC2086,SC2154 # tools.sh sets $cc_packages, $strict, $link and $run; their words are to be split
set -eu -o pipefail
cd "$(dirname "$0")/.."
. desk/tools.sh
page=docs/PERFORMANCE.md
plot=docs/performance.svg
quick=no
for word in "$@"; do
    case $word in
    --quick) quick=yes ;;
    --check) ;;
    *) echo "usage: [ARCHIVE=libbrinefeather.a] desk/bench.sh [--check] [--quick]" >&2; exit 2 ;;
    esac
done

need "$cc" $cc_packages
archive=${ARCHIVE:-$archive}
made="a given one, \`$archive\`"
if [ -z "${ARCHIVE:-}" ]; then
    make_archive quietly
    made="made by \`rt lib\`"
fi
work=$(mktemp -d)
trap 'rm -rf "$work"' EXIT
$cc $strict -pthread $link -o "$work/bench" desk/bench.c desk/generate.c desk/plain.c "$archive"

status=0
$run "$work/bench" "$@" | tee "$work/figures" || status=$?
grep -q '^bar growth' "$work/figures" || exit 1
[ $quick = no ] || exit $status

processor=$(sed -n 's/^model name[^:]*: *//p' /proc/cpuinfo | head -n 1)
[ -n "$processor" ] || processor=$(lscpu 2> /dev/null | sed -n 's/^Model name: *//p' | head -n 1)
{
    echo "Measured on $(date -u +%Y-%m-%d), $machine, ${processor:-processor unknown}, $(nproc) cores."
    [ -z "$run" ] || echo "Both are x86-64 code under the kit's emulator, $($run --version | sed -n '1s/ (.*//p')."
    echo "Plain C by $($cc --version | head -n 1), \`-std=c11 -O2\`. The archive: $made."
    echo
    awk '
    function yes(word) { return word == "yes" ? "kept" : "**missed**" }
    $1 == "cost" && $4 == "mark" {
        if (!costs++) {
            print "| Kind | Events | mark, ns an event | plain C | ratio | key, ns an event | plain C | ratio |"
            print "|---|--:|--:|--:|--:|--:|--:|--:|"
        }
        half = sprintf("| %s | %s | %.0f | %.0f | %.2f |", $2, $3, $5, $6, $7)
    }
    $1 == "cost" && $4 == "key" { printf "%s %.0f | %.0f | %.2f |\n", half, $5, $6, $7 }
    $1 == "growth" {
        if (!growths++) {
            print "\nCost of an event in a paper of 1,000 events, as a multiple of that in a paper of 10 and of 100:\n"
            print "| Kind | Routine | by that at 10 | plain C | by that at 100 | plain C |\n|---|---|--:|--:|--:|--:|"
        }
        if ($4 == 10) printf "| %s | %s | %.2f | %.2f |", $2, $3, $5, $6
        else printf " %.2f | %.2f |\n", $5, $6
    }
    $1 == "stack" {
        if (!stacks++) print "\n| Stack, bytes | ours | plain C |\n|---|--:|--:|"
        printf "| %s | %s | %s |\n", $2, $3, $4
    }
    $1 == "bar" {
        if (!bars++) print "\n| Bar | measured | at most | |\n|---|--:|--:|---|"
        printf "| %s | %s | %s | %s |\n", $2, $3 + 0, $4 + 0, yes($5)
    }' "$work/figures"
} > "$work/text"
awk -f desk/plot.awk "$work/figures" > "$plot"
awk -v text="$work/text" '
/^<!-- figures end -->/ { skip = 0 }
!skip { print }
/^<!-- figures begin/ { skip = 1; while ((getline row < text) > 0) print row }' "$page" > "$work/page"
cat "$work/page" > "$page"
echo "written: $page, $plot"
exit $status
