#!/usr/bin/env bash
# host/list.sh: ./list against document 01's rules for the listing program, every expected line typed from there; then what document 01
# is silent on (status, usage, links, a first run, pieces of output), and the examples of docs/MANUAL.md, run as they stand.
set -euo pipefail
cd "$(dirname "$0")/.."
root=$PWD
faults=0 cases=0
temporary=$(mktemp -d)
trap 'rm -rf "$temporary"' EXIT

command -v python3 >/dev/null || {
    apt-get update -qq && apt-get install -y -qq python3
} || {
    echo "host/list.sh: could not install python3" >&2
    exit 1
}

# same TITLE EXPECTED: what ./list prints for the input on standard input
same() {
    local got
    got=$(./list)
    cases=$((cases + 1))
    if [ "$got" != "$2" ]; then
        faults=$((faults + 1))
        printf 'host/list.sh: %s\n  expected: %s\n  got:      %s\n' "$1" "$(tail -c 200 <<<"$2")" "$(tail -c 200 <<<"$got")" >&2
    fi
}

# times N TEXT: the text N times
times() { printf "%0.s$2" $(seq "$1"); }

lines() { printf '%s\n' "$@"; }

five=$(lines 'leaves 2 nodes 5' 1,1 1,2 2,2 'end 3')
same 'the example' "$five" < <(printf 'a*a*\naa\n')
same 'no last line feed' "$five" < <(printf 'a*a*\naa')
same 'later lines are ignored' "$five" < <(printf 'a*a*\naa\nthird\nfourth\n')
same 'no input: both lines are empty' 'refused 12 at 0' < <(printf '')
same 'an absent name is empty' "$(lines 'leaves 0 nodes 1' - 'end 1')" < <(printf '()\n')
same 'no reading' "$(lines 'leaves 1 nodes 1' 'end 0')" < <(printf 'a\nb\n')
same 'a refused text prints only its refusal' 'refused 12 at 2' < <(printf 'a|*\na\n')
same 'a text of 513 bytes' 'refused 10 at 512' < <(lines "$(times 513 a)" a)
same 'a text longer than any buffer' 'refused 10 at 512' < <(lines "$(times 20000 a)" a)
same 'a name of 255 bytes' "$(lines 'leaves 1 nodes 2' "$(times 254 1,)1" 'end 1')" < <(lines 'a*' "$(times 255 a)")
same 'a name of 256 bytes' "$(lines 'leaves 1 nodes 2' 'refused 30')" < <(lines 'a*' "$(times 256 a)")
same 'a name longer than any buffer' "$(lines 'leaves 1 nodes 2' 'refused 30')" < <(lines 'a*' "$(times 20000 a)")
same 'a refused text hides a name too long' 'refused 13 at 0' < <(lines ')' "$(times 256 a)")
same 'a carriage return is a byte of its line' 'refused 11 at 1' < <(printf 'a\r\na\n')
same 'and of the name' "$(lines 'leaves 1 nodes 1' 'end 0')" < <(printf 'a\na\r\n')

# three times ten ways to read an a: exactly 1,000 readings
ten="(a$(times 9 '|a'))"
thousand=$(for i in $(seq 10); do for j in $(seq 11 20); do for k in $(seq 21 30); do echo "$i,$j,$k"; done; done; done)
same 'exactly 1,000 readings' "$(lines 'leaves 30 nodes 59' "$thousand" 'end 1000')" < <(lines "$ten$ten$ten" aaa)
# and a last one after them, on positions 31 to 33
same 'one reading more' "$(lines 'leaves 33 nodes 65' "$thousand" more)" < <(lines "$ten$ten$ten|aaa" aaa)

# fault TEXT: a case that went wrong
fault() {
    faults=$((faults + 1))
    echo "host/list.sh: $1" >&2
}

# ends TITLE STATUS PRINTED SAID COMMAND..: the command ends so, prints exactly that, and says something on standard error with these words in it
# (nothing, if there are none)
ends() {
    local title=$1 expected=$2 printed=$3 words=$4 status=0 out
    shift 4
    cases=$((cases + 1))
    out=$("$@" 2>"$temporary/said") || status=$?
    [ "$status" = "$expected" ] || fault "$title: status $status, expected $expected"
    [ "$out" = "$printed" ] || fault "$title: printed '$out', expected '$printed'"
    if [ -n "$words" ]; then
        grep -qF -- "$words" "$temporary/said" || fault "$title: said '$(cat "$temporary/said")', expected '$words'"
    elif [ -s "$temporary/said" ]; then
        fault "$title: said '$(cat "$temporary/said")'"
    fi
}

from() { "${@:2}" <"$1"; }
to() { "${@:2}" >"$1"; }
without_input() { "$@" <&-; }
without_output() { "$@" >&-; }
printf 'a*a*\naa\n' >"$temporary/example"
printf ')\na\n' >"$temporary/refused"

ends 'an answer' 0 "$five" '' from "$temporary/example" ./list
ends 'a refusal is an answer' 0 'refused 13 at 0' '' from "$temporary/refused" ./list
ends '--help' 0 '' 'usage: ./list' ./list --help
ends 'an unknown option' 2 '' 'usage: ./list' ./list --nonsense
ends 'a file name' 2 '' 'usage: ./list' ./list "$temporary/example"
ends 'a full device' 1 '' 'standard output cannot be written' from "$temporary/example" to /dev/full ./list
ends 'a directory' 1 '' 'standard input cannot be read' from / ./list
ends 'closed input' 1 '' 'standard input is closed' without_input ./list
ends 'closed output' 1 '' 'standard output is closed' from "$temporary/example" without_output ./list

# through a link, from elsewhere; nothing is left beside it
mkdir "$temporary/link"
ln -s "$root/list" "$temporary/link/readings"
ends 'a link' 0 "$five" '' from "$temporary/example" "$temporary/link/readings"
[ "$(ls -A "$temporary/link")" = readings ] || fault "a link: left $(ls -A "$temporary/link")"

# a source with a new date is looked at once
touch crates/rules/src/lib.rt
ends 'a touched source' 0 "$five" 'rt checks that the program belongs to its sources' from "$temporary/example" ./list
ends 'and again' 0 "$five" '' from "$temporary/example" ./list

# A first run, with a kit that only pretends: its rt says what it proves, prints what the program would, and leaves a program, or fails; its
# machine is the one that it says; the program ends as it is told.
kit=$temporary/kit new=$temporary/new
mkdir -p "$kit/bin" "$new/crates/listing"
cp list crates.txt "$new"
cat >"$kit/bin/rt" <<'END'
#!/bin/sh
[ "$*" = run ] && [ "$(basename "$PWD")" = listing ] || { echo "rt $* in $PWD" >&2; exit 2; }
{
    echo "rt: chose --jobs 2 for bits"
    echo "fn bits::link: proved"
    echo "logic=proved functions=7"
    [ -z "$PRETEND_FAULT" ] || { echo "a fault in a proof"; exit 1; }
    echo "rt: running out/listing"
} >&2
echo "not to be shown"
mkdir -p out
printf '#!/bin/sh\necho ran\n[ -z "$PRETEND_WORDS" ] || echo "$PRETEND_WORDS" >&2\nexit ${PRETEND_STATUS:-0}\n' >out/listing
chmod +x out/listing
END
# shellcheck disable=SC2016 # the scripts' own
printf '#!/bin/sh\necho "${PRETEND_MACHINE:-x86_64}"\n' >"$kit/bin/uname"
chmod +x "$kit/bin/rt" "$kit/bin/uname"
pretend() { env PATH="$kit/bin:$PATH" "$@" "$new/list" </dev/null; }
ends 'a build that fails' 1 '' 'a fault in a proof' pretend PRETEND_FAULT=1
ends 'a first run says that it builds' 0 ran 'some minutes' pretend
rm -r "$new/target"
ends 'and what is proved' 0 ran './list: bits proved' pretend
ends 'a second run' 0 ran '' pretend
touch "$new/crates/listing/out/listing"
ends 'what rt makes is no source' 0 ran '' pretend
ends 'a program that fails' 1 ran './list: failed: so' pretend PRETEND_WORDS='failed: so' PRETEND_STATUS=3
ends 'and says so alone' 1 ran './list: failed: so' pretend PRETEND_WORDS='failed: so'
ends 'or says nothing' 1 ran 'status 3' pretend PRETEND_STATUS=3
for machine in aarch64 riscv64; do
    ends "no program for $machine" 1 '' "this machine is $machine" pretend PRETEND_MACHINE=$machine
done

cases=$((cases + 1))
python3 host/pieces.py || fault 'the pieces of output'

# The manual: an indented command, an empty line, what it prints.
python3 - docs/MANUAL.md "$temporary" <<'END'
import re, sys
blocks = re.findall(r'(?:(?<=\n)    .*\n)+', open(sys.argv[1]).read())
count = 0
for command, printed in zip(blocks, blocks[1:]):
    if './list' in command:
        for what, block in (('command', command), ('printed', printed)):
            with open(f'{sys.argv[2]}/{count}.{what}', 'w') as file:
                file.write(re.sub('(?m)^    ', '', block))
        count += 1
END
examples=0
for command in "$temporary"/*.command; do
    examples=$((examples + 1))
    ends "docs/MANUAL.md: $(cat "$command")" 0 "$(cat "${command%.command}.printed")" '' bash "$command"
done
[ "$examples" -ge 25 ] || fault "only $examples examples in docs/MANUAL.md"

[ "$cases" -gt 0 ] && [ "$faults" -eq 0 ] || {
    echo "host/list.sh: $faults of $cases cases failed" >&2
    exit 1
}
echo "host/list.sh: $cases cases as they should be"
