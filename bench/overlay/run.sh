#!/bin/sh
# run.sh: times the overlay beside the published Rust in one run and writes docs/BENCHMARK.md. Not a test.
set -eu
root=$(cd "$(dirname "$0")/../.." && pwd)
cd "$root"
mkdir -p target docs
(cd crates/overlay_c && rt lib) >target/staticlib.log 2>&1 || {
    cat target/staticlib.log >&2
    exit 1
}
(cd bench/overlay && cargo build --release --offline --quiet --target-dir "$root/target/bench") 2>target/bench.log || {
    cat target/bench.log >&2
    exit 1
}
target/bench/release/bench-overlay >target/bench.table
cat bench/overlay/HEAD.md target/bench.table >docs/BENCHMARK.md
cat docs/BENCHMARK.md
