#!/usr/bin/env bash
# docs/trust.sh LOG: the table of docs/TRUST.md, from the crates and the log of `rt ci`, or of `rt check` or `rt lib` in the crates.
# A log says of a crate only what was proved in that run; of one that was kept from an earlier run it has no line, and the table a '?'.
set -euo pipefail
log=${1:?usage: docs/trust.sh LOG}
cd "$(dirname "$0")/.."
lines() { if [ $# -eq 0 ]; then echo 0; else cat "$@" | wc -l; fi; }

# said CRATE WORD: the number after WORD= on the line that says that the crate is proved, 0 if the line has no such word; '?' if there is no line
said() {
    awk -v crate="$1" -v word=" $2=" '
        /^== / { on = $0 == "== " crate }
        /^rt: chose --jobs [0-9]+ for / { on = $NF == crate }
        on && /^logic=proved / { last = $0 " " }
        END {
            at = index(last, word)
            print (last == "" ? "?" : at == 0 ? 0 : substr(last, at + length(word)) + 0)
        }' "$log"
}

shopt -s nullglob globstar
echo "| crate | code | definitions | laws | function proofs | must-fail edits | functions | axioms |"
echo "|---|---|---|---|---|---|---|---|"
grep -v '^#' crates.txt | grep -o '^[a-z_]*' | while read -r crate; do
    base=crates/$crate
    laws=("$base"/proofs/*.antt)
    proofs=("$base"/proofs/*/**/*.antt)
    specs=("$base"/specs/*.antt)
    edits=("$base"/must-fail/*.edit)
    echo "| $crate | $(lines "$base"/src/*.rt) | $(lines "${specs[@]}") | $(lines "${laws[@]}") | $(lines "${proofs[@]}") | ${#edits[@]} | $(said "$crate" functions) | $(said "$crate" axioms) |"
done
