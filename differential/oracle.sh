#!/bin/sh
# oracle.sh OUT [OPTION]...: builds the published Rust (differential/oracle) with no network; its programs are then OUT/release/oracle*.
# The options are cargo's: `--bin oracle-law` builds that program alone.
set -eu
mkdir -p "$1"
out=$(cd "$1" && pwd)
shift
cd "$(dirname "$0")/oracle"
cargo build --release --offline --quiet --target-dir "$out" "$@" 2>"$out/build.log" || {
    cat "$out/build.log" >&2
    exit 1
}
