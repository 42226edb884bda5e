#!/bin/sh
# What the programs of cases must read and print, by the second implementation: sh tests/host/expected.sh
# Names each file under crates/ that was other, and writes it anew.
set -e
cd "$(dirname "$0")/../.."
command -v rustc > /dev/null || { echo "rustc is missing" >&2; exit 1; }
mkdir -p target/host
rustc --edition 2021 -O -o target/host/expected tests/host/expected/main.rs
target/host/expected
