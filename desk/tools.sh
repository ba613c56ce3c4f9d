# shellcheck shell=bash disable=SC2034 # to be sourced by bash, from the repository's root: who sources it uses the names
# What the scripts share. The archive and the programs mark and key are for x86-64, whatever the machine is.
#
#   archive     the archive for C: where make_archive puts it
#   programs    the folder where make_programs puts mark and key
#   proved      a file that prove_all makes anew
#   stand_in    how C that calls the archive's routines is compiled to call those of desk/plain.c in their place
#   kit         the folder of the Rattle kit
#   machine     x86_64, aarch64 ..
#   cc          the compiler for C programs that link the archive; `need $cc $cc_packages` installs it
#   link        what it wants besides, when it links
#   run         words to put before a C program that links the archive, to run it
#   load        words to put before mark or key, to run it
#   own_cc      the compiler for C programs that do not link the archive: they are for this machine
#   strict      how the project's C is compiled
command -v rt > /dev/null || { echo "The Rattle kit is missing: its command rt is not on the path." >&2; exit 1; }
kit=$(dirname "$(dirname "$(readlink -f "$(command -v rt)")")")
machine=$(uname -m)
own_cc=gcc own_cc_packages="gcc libc6-dev"
if [ "$machine" = x86_64 ]; then
    cc=$own_cc cc_packages=$own_cc_packages link="" run="" load=""
else
    cc=x86_64-linux-gnu-gcc cc_packages="gcc-x86-64-linux-gnu libc6-dev-amd64-cross" link=-static
    # The emulator plays `rep movsb` byte by byte: so the C library is told to copy by vectors.
    vectors=glibc.cpu.x86_rep_movsb_threshold=1000000000:glibc.cpu.x86_rep_stosb_threshold=1000000000
    run="$kit/on/$machine/toolchain/bin/qemu-x86_64 -E GLIBC_TUNABLES=$vectors"
    load="$run $kit/toolchain/lib/ld-linux-x86-64.so.2 --library-path $kit/toolchain/lib"
fi
strict="-std=c11 -O2 -Wall -Wextra -pedantic -Wconversion -Werror"
archive=target/staticlib/libbrinefeather.a
programs=target/bin
proved=target/proved
stand_in="-Dbrinefeather_mark=plain_mark -Dbrinefeather_key=plain_key -Dbrinefeather_add_sequence=plain_add_sequence \
    -Dbrinefeather_add_event=plain_add_event"

# lack COMMAND: says what is missing, if something is: the command or, for a C compiler, the headers of the C library.
lack() {
    if ! command -v "$1" > /dev/null; then
        echo "$1 is missing"
    elif [[ $1 == *gcc ]] && ! "$1" -fsyntax-only -x c - <<< '#include <stdio.h>' 2> /dev/null; then
        echo "$1 finds no headers of the C library"
    fi
}

# need COMMAND PACKAGE..: installs the packages if something is missing.
need() {
    local lack root=""
    lack=$(lack "$1")
    shift
    [ "$lack" ] || return 0
    command -v apt-get > /dev/null || { echo "$lack. Packages wanted: $*" >&2; exit 1; }
    echo "$lack: installing $*" >&2
    [ "$(id -u)" = 0 ] || root=sudo
    [ "${lists_are_new:-}" ] || { $root apt-get update -qq && lists_are_new=yes; }
    DEBIAN_FRONTEND=noninteractive $root apt-get install -y -qq "$@" > /dev/null
}

# quietly WORD..: runs a command and shows what it said only if it failed.
quietly() {
    local said
    said=$("$@" 2>&1) || { tail -n 20 <<< "$said" >&2; return 1; }
}

# is_new FILE: it is there, and nothing that it is made of has changed since it was made.
is_new() {
    [ -e "$1" ] && [ ! crates.txt -nt "$1" ] && [ ! "$kit/KIT-ID" -nt "$1" ] \
        && [ -z "$(find crates -mindepth 2 -name out -prune -o -newer "$1" -print -quit)" ]
}

# rt_in FOLDER WORD..: runs rt there.
rt_in() { (cd "$1" && rt "${@:2}"); }

# prove_all: proves every crate, unless nothing has changed since it did.
prove_all() {
    is_new $proved && return
    mkdir -p "${proved%/*}"
    touch $proved.begun
    prove rt_in . all check || return
    mv $proved.begun $proved
}

# make_archive HOW: proves and makes it, unless it is new. HOW is quietly or prove. rt names an archive by its crate.
make_archive() {
    is_new $archive && return
    "$1" rt_in crates/brinefeather_c lib || return
    install -D -m 644 crates/brinefeather_c/out/libbrinefeather_c.a $archive
}

# make_programs HOW: proves and makes mark and key, unless they are new, as after rt ci. rt also runs what it makes: there
# is no paper in the folder of the crate, so it prints only that.
make_programs() {
    local name made
    for name in mark key; do
        made=crates/$name/out/$name
        is_new "$made" || "$1" rt_in crates/$name run || return
        install -D -m 755 "$made" $programs/$name || return
    done
}

# crate_count FOLDER: how many crates of crates.txt the crate there is, with all that it stands on; of `.`, every crate.
crate_count() {
    awk -F: -v wanted="${1##*/}" '
    function visit(name, parts, n) {
        if (!(name in below) || name in visited) return
        visited[name]
        count++
        for (n = split(below[name], parts, " "); n; n--) visit(parts[n])
    }
    { sub(/#.*/, "") }
    NF { split($1, words, " "); below[words[1]] = $2; all = all " " words[1] }
    END { for (n = split(wanted == "." ? all : wanted, names, " "); n; n--) visit(names[n]); print count + 0 }' crates.txt
}

# progress COUNT: of what rt says, shows each crate as it is proved, of so many, and every five seconds that it is still
# at work. `rt all` names each crate that it is done with, and says no more of one that has not changed.
progress() {
    local line name="" proved=0 begun=$SECONDS
    while true; do
        if IFS= read -r -t 5 line; then
            case $line in
            "== "*) tell_proved "$1" "unchanged"; name=${line#== }; name=${name/#summary/} ;;
            "crate "*": modules "*) name=${line#crate }; name=${name%%:*} ;;
            "logic=proved "*) tell_proved "$1" "$(cut -d " " -f 2 <<< "$line")" ;;
            "logic="*) name="" ;;
            esac
        elif [ $? -gt 128 ]; then
            printf '%5d s  ..\n' $((SECONDS - begun))
        else
            break
        fi
    done
}

# tell_proved COUNT WORD: for progress, whose names it uses; of no crate it tells nothing.
tell_proved() {
    [ "$name" ] || return 0
    proved=$((proved + 1))
    printf '%5d s  proved %d of %d: %s %s\n' $((SECONDS - begun)) "$proved" "$1" "$name" "$2"
    name=""
}

# prove rt_in FOLDER WORD..: runs rt there and shows its progress, and if it fails the end of what it said.
prove() {
    local log count
    log=$(mktemp)
    count=$(crate_count "$2")
    (set -o pipefail; "$@" 2>&1 | tee "$log" | progress "$count") || { tail -n 20 "$log" >&2; rm "$log"; return 1; }
    rm "$log"
}
