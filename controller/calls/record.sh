#!/bin/sh
# Runs the random tests of tests/host on x86-64 and records their calls of each library: sh controller/calls/record.sh [SEED]
#   target/controller/calls/LIBRARY.bin
# Wants rustc, cc, and the archives of target/staticlib.
set -eu
cd "$(dirname "$0")/../.."
. controller/tools.sh
seed=${1:-20261117}
work=$out/calls
for library in formula_c formula_int_c; do
    [ -s "target/staticlib/lib$library.a" ] || sh tools/build.sh "$library"
done

# $1: the library whose calls are recorded: the tests are linked with functions of its names in front of it.
between() {
    rm -rf "${work:?}/$1" "$work/$1.bin"
    mkdir -p "$work/$1"
    library=target/staticlib/lib$1.a
    from_header record "$library" > "$work/$1/calls.inc"
    from_header names "$library" | grep -v '^formula_remainder$' | sed 's/.*/& recorded_&/' > "$work/$1/renamed"
    ar p "$library" > "$work/$1/library.o"
    objcopy --redefine-syms="$work/$1/renamed" "$work/$1/library.o"
    cc -std=gnu11 -Wall -Wextra -Werror -O2 -I include -I "$work/$1" -c -o "$work/$1/record.o" controller/calls/record.c
    ar rcs "$work/$1/lib$1.a" "$work/$1/record.o" "$work/$1/library.o"
    rustc --edition 2021 -O -L "$work/$1" -L target/staticlib -o "$work/$1/host" tests/host/main.rs
}

# $1: the library, $2: the most calls of an operation, the rest: the tests
record() {
    library=$1 each=$2
    shift 2
    RECORD="$work/$library.bin" RECORD_EACH="$each" "$work/$library/host" "$@" > "$work/host.out" || { tail -5 "$work/host.out"; exit 1; }
}

between formula_c
record formula_c 4000 6000 "$seed"
for part in literals cards salvage reads images lists replay formats; do
    record formula_c 400 $part 1000 "$seed"
done
# every answer's words are tried with buffers of every size, before any listing
record formula_c 3000 listings 600 "$seed"
between formula_int_c
record formula_int_c 4000 profile 6000 "$seed"
for library in formula_c formula_int_c; do
    echo "$library: $(wc -c < "$work/$library.bin") bytes of recorded calls"
done
