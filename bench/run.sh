#!/usr/bin/env bash
# bench/run.sh [ARCHIVE_DIR]: counts instructions (callgrind) and times pathological expressions for PCRE2 and RE2, and
# with ARCHIVE_DIR/libsatchelram.a for our calls, each of which it also counts by itself and measures the stack of.
# Never a test; RESULTS.md says what is counted and why.
# x86-64 only: a count under an emulator or of another build says nothing about the archive.
set -euo pipefail

stop() {
    echo "bench/run.sh: $1" >&2
    exit 1
}

[ $# -le 1 ] || stop "usage: bench/run.sh [ARCHIVE_DIR]"
[ "$(uname -m)" = x86_64 ] || stop "the archive is x86-64, this machine is not"
archive=''
if [ $# -eq 1 ]; then
    archive=$(cd "$1" && pwd)/libsatchelram.a
    [ -f "$archive" ] || stop "no archive at $archive"
fi
cd "$(dirname "$0")"

for package in gcc g++ libpcre2-dev libre2-dev valgrind; do
    dpkg -s "$package" >/dev/null 2>&1 || missing="${missing:-} $package"
done
if [ -n "${missing:-}" ]; then
    apt-get update -qq || stop "apt-get update failed"
    # shellcheck disable=SC2086 # the packages are words
    apt-get install -y -qq $missing || stop "could not install$missing"
fi

valgrind=$(command -v valgrind) || stop "no valgrind"
out=$(mktemp -d)
trap 'rm -rf "$out"' EXIT
flags=(-O2 -Wall -Wextra -Werror -I ../include -I .)

# All symbols are bound at the start, so that no count holds the dynamic linker's work.
gcc "${flags[@]}" -std=c99 -c bench.c -o "$out/bench.o"
gcc "${flags[@]}" -std=c99 pcre2.c "$out/bench.o" -Wl,-z,now -lpcre2-8 -o "$out/pcre2"
g++ "${flags[@]}" re2.cc "$out/bench.o" -Wl,-z,now -lre2 -o "$out/re2"
engines=(pcre2 re2)
if [ -n "$archive" ]; then
    gcc "${flags[@]}" -std=c99 ours.c "$out/bench.o" "$archive" -Wl,-z,now -o "$out/ours"
    gcc "${flags[@]}" -std=c99 calls.c lent.c "$archive" -Wl,-z,now -o "$out/calls"
    gcc "${flags[@]}" -std=gnu99 stack.c lent.c "$archive" -Wl,-z,now -o "$out/stack"
    engines=(ours pcre2 re2)
fi

# count FUNCTION PROGRAM WORD..: instructions of the one time that the function runs in the program. The environment has
# one word only, since its length moves the stack, and with it a count by a few instructions. That word keeps memset
# from `rep stosb`, of which callgrind counts every byte as an instruction. A count that fails stops the script if it is
# assigned to a variable, but not as an argument.
count() {
    local log=$out/log figure
    env -i GLIBC_TUNABLES=glibc.cpu.x86_rep_stosb_threshold=1000000000 "$valgrind" --tool=callgrind --callgrind-out-file=/dev/null --toggle-collect="$1" "$out/$2" "${@:3}" >"$log" 2>&1 ||
        stop "${*:2} failed: $(cat "$log")"
    figure=$(sed -n 's/.*Collected : \([0-9]*\).*/\1/p' "$log")
    [[ $figure =~ ^[1-9][0-9]*$ ]] || stop "${*:2}: callgrind saw no $1: $(cat "$log")"
    echo "$figure"
}

# line TITLE ENGINE [plain]
line() {
    local title=$1 once name dropped
    once=$(count measured_once "$2" once "${@:3}")
    name=$(count measured_read "$2" name "${@:3}")
    dropped=$(count measured_read "$2" dropped "${@:3}")
    printf '%-24s %10s %10s %10s\n' "$title" "$once" "$name" "$dropped"
}

# row TITLE FIGURE..: a line of the matrix
row() {
    printf '%-32s %10s %10s %10s %10s %10s\n' "$@"
}

# matrix: a line for each row of calls.c, a column for each call
matrix() {
    local calls=(sheet accept first next check) titles title call figure figures
    titles=$("$out/calls" rows)
    row "" "${calls[@]}"
    while IFS= read -r title; do
        figures=()
        for call in "${calls[@]}"; do
            figure=$(count measured calls "$title" "$call" </dev/null)
            figures+=("$figure")
        done
        row "$title" "${figures[@]}"
    done <<<"$titles"
}

echo "instructions, 119 leaves, 16-byte name"
printf '%-24s %10s %10s %10s\n' "" once name dropped
[ -z "$archive" ] || line "satchelram, positions" ours
line "PCRE2, positions" pcre2
line "RE2, positions" re2
line "PCRE2, yes or no" pcre2 plain
line "RE2, yes or no" re2 plain
echo
if [ -n "$archive" ]; then
    echo "instructions of each call, satchelram"
    matrix
    echo
fi
echo "pathological expressions, a 255-byte name, microseconds (least of 20)"
for engine in "${engines[@]}"; do
    "$out/$engine" wild
done
if [ -n "$archive" ]; then
    echo
    echo "stack of a call on large inputs"
    "$out/stack"
fi
