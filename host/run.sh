#!/usr/bin/env bash
# host/run.sh ARCHIVE_DIR [--long] [--seed N]
# Holds ARCHIVE_DIR/libsatchelram.a against the second matcher and the documents, compiles the header as C and C++ with its
# example and its words, installs the library into temporary folders, runs demo.c from there and loads the shared library.
# --long: a much longer comparison, by a seed from the clock. --seed: the first seed of the random inputs (1 otherwise); a
# failed round prints its own.
#
# The archive is x86-64, and made on such a machine. On an aarch64 machine everything is built for x86-64 with Debian's packages and run by qemu.
# What is missing is installed with apt-get; nothing is skipped.
set -euo pipefail

stop() {
    echo "host/run.sh: $1" >&2
    exit 1
}

usage="usage: host/run.sh ARCHIVE_DIR [--long] [--seed N]"
archive_dir='' seed=''
unset SATCHELRAM_LONG SATCHELRAM_ROUNDS
while [ $# -gt 0 ]; do
    case $1 in
    --long) export SATCHELRAM_LONG=1 ;;
    --seed) seed=${2:?$usage} && shift ;;
    -*) stop "$usage" ;;
    *)
        [ -z "$archive_dir" ] || stop "$usage"
        archive_dir=$1
        ;;
    esac
    shift
done
[ -n "$archive_dir" ] || stop "$usage"
[ -f "$archive_dir/libsatchelram.a" ] || stop "no libsatchelram.a in $archive_dir: make it with archive.sh"
archive_dir=$(cd "$archive_dir" && pwd)
if [ -z "$seed" ]; then
    seed=1
    [ -z "${SATCHELRAM_LONG:-}" ] || seed=$(date +%s)
fi
export SATCHELRAM_SEED=$seed SATCHELRAM_LIB_DIR=$archive_dir

cd "$(dirname "$0")/.."
root=$PWD
export CARGO_TARGET_DIR=${CARGO_TARGET_DIR:-$root/target/host}
target=x86_64-unknown-linux-gnu

install_packages() {
    echo "host/run.sh: installing $*"
    apt-get update -qq || stop "apt-get update failed"
    apt-get install -y -qq "$@" || stop "could not install $*"
}

has_all() {
    local command
    for command in "$@"; do
        command -v "$command" >/dev/null || return 1
    done
}

# An x86-64 machine: its own compilers, nothing in front of a program.
set_up_x86_64() {
    has_all cargo || install_packages cargo
    has_all gcc g++ pkg-config || install_packages gcc g++ libc6-dev pkg-config
    cargo=(cargo) cc=(gcc) cxx=(g++) nm=(nm) runner=()
}

# An aarch64 machine: Debian's rustc with the amd64 std, Debian's cross compilers, qemu in front of a program.
set_up_aarch64() {
    if ! has_all /usr/bin/cargo /usr/bin/rustc qemu-x86_64 x86_64-linux-gnu-gcc x86_64-linux-gnu-g++ pkg-config ||
        [ ! -d /usr/lib/rustlib/$target/lib ] || [ ! -e /lib64/ld-linux-x86-64.so.2 ] || [ ! -e /usr/lib/x86_64-linux-gnu/libstdc++.so.6 ]; then
        dpkg --add-architecture amd64 || stop "dpkg cannot take in amd64"
        install_packages cargo rustc libstd-rust-dev:amd64 libc6:amd64 libstdc++6:amd64 qemu-user \
            gcc-x86-64-linux-gnu g++-x86-64-linux-gnu pkg-config
    fi
    cargo=(env RUSTC=/usr/bin/rustc /usr/bin/cargo) cc=(x86_64-linux-gnu-gcc) cxx=(x86_64-linux-gnu-g++)
    nm=(x86_64-linux-gnu-nm) runner=(qemu-x86_64)
    export CARGO_TARGET_X86_64_UNKNOWN_LINUX_GNU_LINKER=x86_64-linux-gnu-gcc
    export CARGO_TARGET_X86_64_UNKNOWN_LINUX_GNU_RUNNER=qemu-x86_64
}

machine=$(uname -m)
case $machine in
x86_64 | aarch64) "set_up_$machine" ;;
*) stop "no way to run x86-64 programs on $machine is written down here" ;;
esac

temporary=$(mktemp -d)
trap 'rm -rf "$temporary"' EXIT
warnings=(-Wall -Wextra -Werror -pedantic -Wconversion -Wshadow)

# The comparison with the second matcher, and the examples of the documents.
compare() {
    echo "host/run.sh: comparing, seed $seed"
    "${cargo[@]}" test --release --offline --quiet --target $target --features archive --manifest-path host/Cargo.toml ||
        stop "the archive and the second matcher differ, or a test failed"
}

# hold_header LANGUAGE STANDARD COMPILER..
hold_header() {
    local language=$1 standard=$2
    shift 2
    "$@" -std="$standard" "${warnings[@]}" -O1 -I include -o "$temporary/header" -x "$language" host/header.c -x none "$archive_dir/libsatchelram.a" ||
        stop "the header does not compile as $standard"
    "${runner[@]}" "$temporary/header" || stop "the header and the archive differ ($standard)"
}

hold_headers() {
    local standard
    for standard in c99 c11 c17; do
        hold_header c "$standard" "${cc[@]}"
    done
    for standard in c++98 c++11 c++17; do
        hold_header c++ "$standard" "${cxx[@]}"
    done
}

# The words of the numbers against the headings of docs/ANSWERS.md; no number has other words.
hold_words() {
    "${cc[@]}" -std=c99 "${warnings[@]}" -I include -o "$temporary/words" host/words.c || stop "the words do not compile"
    "${runner[@]}" "$temporary/words" >"$temporary/words.printed" || stop "the words failed"
    awk '/^## [0-9]+ `[A-Z_]+`: / {
            number = $2; sub(/^## [0-9]+ `[A-Z_]+`: /, ""); gsub(/`/, ""); words[number] = $0; count++
        }
        END {
            for (number = 0; number < 300; number++) print number, number in words ? words[number] : "no number of Satchelram"
            exit count != 24
        }' docs/ANSWERS.md >"$temporary/words.expected" || stop "docs/ANSWERS.md has not 24 numbers"
    diff "$temporary/words.expected" "$temporary/words.printed" || stop "satchelram_words has other words than docs/ANSWERS.md"
    echo "words: as in docs/ANSWERS.md"
}

# The example in the header's first comment, as it stands there, on P5 of document 01, a refused text and a name that does not fit.
hold_example() {
    {
        awk '/^ \*     #include <satchelram.h>/ { on = 1 } /^ \* [^ ]/ { on = 0 } on { sub(/^ \* ?/, ""); print }' include/satchelram.h
        echo 'int main(void) { return !(print_readings("a*a*", "aa") == 1 && print_readings("a|*", "a") == 12 && print_readings("a", "b") == 1); }'
    } >"$temporary/example.c"
    "${cc[@]}" -std=c99 "${warnings[@]}" -I include -o "$temporary/example" "$temporary/example.c" "$archive_dir/libsatchelram.a" ||
        stop "the header's example does not compile"
    "${runner[@]}" "$temporary/example" >"$temporary/example.printed" || stop "the header's example answers something else"
    diff <(printf '%s\n' 1,1 1,2 2,2) "$temporary/example.printed" || stop "the header's example prints something else"
    echo "example: as expected"
}

# The header says that only these are imported.
hold_imports() {
    local imported
    imported=$("${nm[@]}" -u "$archive_dir/libsatchelram.a" | awk '$1 == "U" { print $2 }' | sort -u | tr '\n' ' ')
    [ "$imported" = "memcpy memset " ] || stop "the archive imports $imported"
    "${cxx[@]}" -std=c++98 "${warnings[@]}" -Wold-style-cast -I include -o "$temporary/casts" host/casts.cpp "$archive_dir/libsatchelram.a" ||
        stop "the header gives warnings for casts"
    "${runner[@]}" "$temporary/casts" || stop "the header as C++ answers something else"
    echo "imports and casts: as expected"
}

# demo.c as its first lines say, from an installed library; the prefix has what a shell and sed stumble over.
demonstrate() {
    local flags prefix="$temporary/a b&c"
    CC=${cc[0]} ./install.sh "$prefix" "$archive_dir" || stop "the library could not be installed"
    flags=$(PKG_CONFIG_LIBDIR="$prefix/lib/pkgconfig" pkg-config --cflags --libs satchelram) || stop "pkg-config does not find the library"
    eval "\"\${cc[@]}\" -std=c99 \"\${warnings[@]}\" host/demo.c $flags -o \"\$temporary/demo\"" || stop "the demo does not compile"
    "${runner[@]}" "$temporary/demo" >"$temporary/demo.printed" || stop "the demo failed"
    diff host/demo.expected "$temporary/demo.printed" || stop "the demo prints something else than host/demo.expected"
    echo "demo: as expected"
}

# The shared library: its name, what it exports and imports, and its calls, loaded while running and linked.
hold_shared() {
    local lib="$temporary/a b&c/lib" exported imported
    exported=$("${nm[@]}" -D --defined-only "$lib/libsatchelram.so" | awk '{ print $3 }' | sort | tr '\n' ' ')
    [ "$exported" = "satchelram_accept satchelram_check satchelram_first satchelram_next satchelram_sheet satchelram_version " ] ||
        stop "the shared library exports $exported"
    imported=$("${nm[@]}" -D -u "$lib/libsatchelram.so" | awk '{ sub(/@.*/, "", $2); print $2 }' | sort | tr '\n' ' ')
    [ "$imported" = "memcpy memset " ] || stop "the shared library imports $imported"
    "${cc[@]}" -std=c99 "${warnings[@]}" -I include host/shared.c -ldl -o "$temporary/load" || stop "shared.c does not compile"
    "${runner[@]}" "$temporary/load" "$lib/libsatchelram.so.0" || stop "the shared library answers something else"
    "${cc[@]}" -std=c99 "${warnings[@]}" -I include host/demo.c -L"$lib" -lsatchelram -Wl,-rpath,"$lib" -o "$temporary/linked" ||
        stop "the demo does not link with the shared library"
    # found by its soname, without the link that the linker used
    rm "$lib/libsatchelram.so"
    diff host/demo.expected <("${runner[@]}" "$temporary/linked") || stop "the demo prints something else with the shared library"
    echo "shared library: as expected"
}

# hold_installed LIBDIR PREFIX: what is installed by a packager, and that nothing of it is left when it is removed.
hold_installed() {
    local to=$temporary/destination libdir=$1 prefix=$2 expected call
    rm -rf "$to"
    CC=${cc[0]} DESTDIR=$to LIBDIR=$libdir ./install.sh "$prefix" "$archive_dir" >/dev/null || stop "the library could not be installed into $prefix"
    expected=$(printf '%s\n' "$prefix/include/satchelram.h" "$libdir/libsatchelram.a" "$libdir/libsatchelram.so" "$libdir/libsatchelram.so.0" \
        "$libdir/libsatchelram.so.0.1.0" "$libdir/pkgconfig/satchelram.pc" "$prefix/share/man/man3/satchelram.3" \
        "$prefix/share/doc/satchelram/"{ANSWERS,CHANGELOG,MANUAL,PACKING,README,TRUST}.md | sort)
    diff <(echo "$expected") <(cd "$to" && find . ! -type d | sed 's/^\.//' | sort) || stop "other files than expected are installed into $prefix"
    for call in $(sed -n 's/^\(static inline \)\{0,1\}\(uint64_t\|uint32_t\|unsigned\|const char\) \**\(satchelram_[a-z]*\)(.*/\3/p' include/satchelram.h); do
        grep -q "$call(" "$to$prefix/share/man/man3/satchelram.3" || stop "the man page lacks $call"
    done
    ! grep -rq '@[A-Z]*@' "$to$prefix/share/man" "$to$libdir/pkgconfig" || stop "a file of $prefix is not filled in"
    [ "$(PKG_CONFIG_LIBDIR="$to$libdir/pkgconfig" pkg-config --variable=libdir satchelram)" = "$libdir" ] || stop "pkg-config names another libdir"
    DESTDIR=$to LIBDIR=$libdir ./install.sh --uninstall "$prefix" >/dev/null || stop "the library could not be removed from $prefix"
    [ -z "$(find "$to" ! -type d -o -name satchelram)" ] || stop "install.sh --uninstall leaves something in $prefix"
}

install_everywhere() {
    hold_installed /usr/lib/x86_64-linux-gnu /usr
    hold_installed "/opt/a & b/lib" "/opt/a & b"
    hold_installed /elsewhere/lib64 /opt/maps
    ! ./install.sh relative "$archive_dir" 2>/dev/null || stop "a relative prefix is taken"
    # shellcheck disable=SC2016 # the dollar is meant
    ! DESTDIR=$temporary/destination ./install.sh '/opt/$a' "$archive_dir" 2>/dev/null || stop "a prefix that pkg-config cannot carry is taken"
    echo "installation: as expected"
}

compare
hold_headers
hold_words
hold_example
hold_imports
demonstrate
hold_shared
install_everywhere
echo "host/run.sh: all passed"
