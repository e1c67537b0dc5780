#!/bin/sh
# Builds the proved lines library and a plain Rust version of it, and prints the speed of both.
set -e
cd "$(dirname "$0")/.."
(cd crates/line_c && rt lib >/dev/null)
mkdir -p target/bench
rustc -O -C target-cpu=x86-64-v2 --edition 2021 bench/lines.rs -L crates/line_c/out -l static=line_c -o target/bench/lines
exec target/bench/lines
