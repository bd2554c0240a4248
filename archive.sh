#!/usr/bin/env bash
# archive.sh: proves and builds the library for C, target/staticlib/libsatchelram.a, from crates/satchelram_c. The Rattle kit's rt proves
# again only what no earlier check on this machine kept.
set -euo pipefail

stop() {
    echo "archive.sh: $1" >&2
    exit 1
}

[ $# -eq 0 ] || stop "usage: archive.sh"
cd "$(dirname "$(readlink -f -- "${BASH_SOURCE[0]}")")"
command -v rt >/dev/null || stop "the Rattle kit's command rt is not on the path"
(cd crates/satchelram_c && rt lib --cpu x86-64) || stop "the archive was not built"
install -D -m 644 crates/satchelram_c/out/libsatchelram_c.a target/staticlib/libsatchelram.a
echo "archive.sh: target/staticlib/libsatchelram.a is built"
