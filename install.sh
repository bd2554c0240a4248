#!/usr/bin/env bash
# install.sh PREFIX [ARCHIVE_DIR]: installs the library from ARCHIVE_DIR/libsatchelram.a (by default target/staticlib, where
# archive.sh puts it):
#
#     PREFIX/include/satchelram.h
#     LIBDIR/libsatchelram.a
#     LIBDIR/libsatchelram.so.VERSION, with links libsatchelram.so.SONAME and libsatchelram.so
#     LIBDIR/pkgconfig/satchelram.pc       links the archive; -lsatchelram by itself takes the shared library
#     PREFIX/share/man/man3/satchelram.3
#     PREFIX/share/doc/satchelram/         the documents
#
# install.sh --uninstall PREFIX: removes those files again, whatever their version.
#
# From the environment: LIBDIR (PREFIX/lib otherwise); DESTDIR, which stands before every path written to, as packagers
# expect; CC (cc otherwise), which links the shared library from the archive and must link for x86-64; LDFLAGS for it.
set -euo pipefail

stop() {
    echo "install.sh: $1" >&2
    exit 1
}

usage="usage: install.sh PREFIX [ARCHIVE_DIR] | install.sh --uninstall PREFIX"
uninstall=''
if [ "${1:-}" = --uninstall ]; then
    uninstall=1
    shift
fi
case $#:$uninstall in
1: | 2: | 1:1) ;;
*) stop "$usage" ;;
esac
case $1 in
-*) stop "$usage" ;;
esac

root=$(cd "$(dirname "$(readlink -f -- "${BASH_SOURCE[0]}")")" && pwd)
header=$root/include/satchelram.h
documents=(README.md CHANGELOG.md docs/MANUAL.md docs/ANSWERS.md docs/PACKING.md docs/TRUST.md)
prefix=${1%/}
libdir=${LIBDIR:-$prefix/lib}
libdir=${libdir%/}

# A path as it can stand between double quotes in a pkg-config file.
usable() {
    case $2 in
    /*) ;;
    *) stop "$1 must be an absolute path: $2" ;;
    esac
    case $2 in
    *[\"\\\$\#\`]* | *$'\n'*) stop "$1 must have none of \" \\ \$ # \` and no line feed, which pkg-config cannot carry: $2" ;;
    esac
}
usable PREFIX "$prefix/"
usable LIBDIR "$libdir/"

include_to=${DESTDIR:-}$prefix/include
lib_to=${DESTDIR:-}$libdir
man_to=${DESTDIR:-}$prefix/share/man/man3
doc_to=${DESTDIR:-}$prefix/share/doc/satchelram

if [ -n "$uninstall" ]; then
    rm -f "$include_to/satchelram.h" "$lib_to/libsatchelram.a" "$lib_to"/libsatchelram.so "$lib_to"/libsatchelram.so.* \
        "$lib_to/pkgconfig/satchelram.pc" "$man_to/satchelram.3"
    for document in "${documents[@]}"; do
        rm -f "$doc_to/${document##*/}"
    done
    [ ! -d "$doc_to" ] || rmdir --ignore-fail-on-non-empty "$doc_to"
    echo "removed satchelram from ${DESTDIR:-}$prefix"
    exit 0
fi

archive=${2:-$root/target/staticlib}/libsatchelram.a
[ -f "$archive" ] || stop "no archive at $archive: make it with archive.sh"
version=$(sed -n 's/^#define SATCHELRAM_VERSION "\(.*\)"$/\1/p' "$header")
[ -n "$version" ] || stop "$header names no version"
soname=libsatchelram.so.${version%%.*}
calls=$(sed -n 's/^uint64_t \(satchelram_[a-z]*\)(.*/\1/p' "$header")
[ -n "$calls" ] || stop "$header names no call"
for call in $calls; do
    grep -aq "$call" "$archive" || stop "$archive does not hold $call"
done

temporary=$(mktemp -d)
trap 'rm -rf "$temporary"' EXIT

# The archive as a shared library that exports the header's calls and nothing else.
{
    echo "{ global:"
    echo "${calls//$'\n'/;};"
    echo "local: *; };"
} >"$temporary/exports"
# shellcheck disable=SC2086 # LDFLAGS are words
"${CC:-cc}" -shared -nostartfiles ${LDFLAGS:-} -o "$temporary/shared" -Wl,-soname,"$soname" -Wl,-z,defs -Wl,-z,noexecstack \
    -Wl,--version-script,"$temporary/exports" -Wl,--whole-archive "$archive" -Wl,--no-whole-archive ||
    stop "${CC:-cc} did not link the shared library; CC must name a C compiler for x86-64"

# LIBDIR as the pkg-config file has it: by its prefix, where it stands below it, so that the prefix can be moved
libdir_said=$libdir
case $libdir in
"$prefix"/*) libdir_said="\${prefix}${libdir#"$prefix"}" ;;
esac

# filled FILE TO: a file with its @..@ filled in
filled() {
    local line
    while IFS= read -r line; do
        line=${line//@PREFIX@/"$prefix"}
        line=${line//@LIBDIR@/"$libdir_said"}
        line=${line//@VERSION@/"$version"}
        printf '%s\n' "$line"
    done <"$1" >"$temporary/filled"
    install -m 644 "$temporary/filled" "$2"
}

install -d "$include_to" "$lib_to/pkgconfig" "$man_to" "$doc_to"
install -m 644 "$header" "$include_to/satchelram.h"
install -m 644 "$archive" "$lib_to/libsatchelram.a"
install -m 755 "$temporary/shared" "$lib_to/libsatchelram.so.$version"
ln -sf "libsatchelram.so.$version" "$lib_to/$soname"
ln -sf "$soname" "$lib_to/libsatchelram.so"
filled "$root/satchelram.pc.in" "$lib_to/pkgconfig/satchelram.pc"
filled "$root/docs/satchelram.3.in" "$man_to/satchelram.3"
for document in "${documents[@]}"; do
    install -m 644 "$root/$document" "$doc_to/${document##*/}"
done
echo "installed satchelram $version into ${DESTDIR:-}$prefix"
