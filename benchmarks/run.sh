#!/bin/bash
# Builds the static library and the benchmark beside it, compares both calculations and times them.
set -eu
cd "$(dirname "$0")/.."
mkdir -p target
(cd crates/foreign && rt lib) > target/foreign.out 2>&1 || { cat target/foreign.out; exit 1; }
rustc --edition 2021 -C opt-level=3 -C panic=abort -o target/benchmarks benchmarks/main.rs \
    -L crates/foreign/out -l static=foreign
exec target/benchmarks "$@"
