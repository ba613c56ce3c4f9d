#!/usr/bin/env bash
# Installs the archive, its header, a pkg-config file, the programs and the manual pages: `make install PREFIX= DESTDIR=`.
# shellcheck disable=SC2086,SC2154 # the words of $strict and $link are meant to be split; tools.sh gives them
set -eu
prefix=$(realpath -m "${PREFIX:-/usr/local}")
case $prefix in
*[\&\|\\[:space:]]*) echo "PREFIX must not have a space, an &, a | or a \\ in it: $prefix" >&2; exit 2 ;;
esac
to=${DESTDIR:+$(realpath -m "$DESTDIR")}$prefix
cd "$(dirname "$0")/.."
# shellcheck source=desk/tools.sh
. desk/tools.sh
work=$(mktemp -d)
trap 'rm -rf "$work"' EXIT

need $cc $cc_packages
echo "Proving and building what is not there yet: minutes, the first time .."
make_programs prove
make_archive prove
for program in desk transcribe; do $cc $strict $link -o "$work/$program" desk/$program.c $archive; done
sed "s|@PREFIX@|$prefix|" desk/brinefeather.pc.in > "$work/brinefeather.pc"

install -d "$to"/{bin,include,lib/pkgconfig,share/man/man1,share/man/man3}
install -m 755 $programs/mark $programs/key "$work/desk" "$work/transcribe" "$to/bin"
install -m 644 desk/brinefeather.h "$to/include"
install -m 644 $archive "$to/lib"
install -m 644 "$work/brinefeather.pc" "$to/lib/pkgconfig"
install -m 644 desk/man/*.1 "$to/share/man/man1"
install -m 644 desk/man/*.3 "$to/share/man/man3"
echo "Installed in $to: bin/{mark,key,desk,transcribe}, lib/libbrinefeather.a, include/brinefeather.h, manual pages"
[ "$machine" = x86_64 ] || echo "The programs and the archive are for x86-64: on this machine ($machine) they need an emulator."
