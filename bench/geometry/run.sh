#!/bin/sh
# run.sh: times the geometry layer beside the published Rust in one run and writes docs/BENCHMARK-geometry.md. Not a test.
set -eu
root=$(cd "$(dirname "$0")/../.." && pwd)
cd "$root"
mkdir -p target
(cd crates/geometry_c && rt lib) >target/staticlib.log 2>&1 || {
    cat target/staticlib.log >&2
    exit 1
}
(cd bench/geometry && cargo build --release --offline --quiet --target-dir "$root/target/bench") 2>target/bench.log || {
    cat target/bench.log >&2
    exit 1
}
mkdir -p docs
{
    cat bench/geometry/HEAD.md
    target/bench/release/bench-geometry
} >docs/BENCHMARK-geometry.md
cat docs/BENCHMARK-geometry.md
