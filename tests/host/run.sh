#!/bin/sh
# Builds the archives of formula_c and formula_int_c and tests them from Rust and from C: sh tests/host/run.sh [CASES [SEED [FIRST]]]
set -e
cd "$(dirname "$0")/../.."
for tool in rustc cc; do
    command -v "$tool" > /dev/null || { echo "$tool is missing" >&2; exit 1; }
done
sh tests/host/expected.sh
sh include/build.sh
out=target/host

# A control of the test of include/build.sh: the library with reals must fail it.
if sh include/integers.sh target/staticlib/libformula_c.a > "$out/integers.out"; then
    echo "include/integers.sh finds no floats in libformula_c.a" >&2
    exit 1
fi
echo "include/integers.sh finds floats in libformula_c.a: $(grep -cE '^ +[0-9]+ ' "$out/integers.out") instructions by name"

rustc --edition 2021 -O -L target/staticlib -o "$out/host" tests/host/main.rs
"$out/host" examples docs/LANGUAGE.md docs/ANSWERS.md
"$out/host" literals
"$out/host" cards
"$out/host" salvage
"$out/host" reads
"$out/host" images
"$out/host" lists
"$out/host" replay
"$out/host" formats
"$out/host" listings
"$out/host" profile
sh tests/host/windows.sh
sh tests/host/runs.sh

# $1: the program to write, $2: its file, the rest: what it is linked with
build_c() {
    program=$1 file=$2
    shift 2
    cc -std=c99 -Wall -Wextra -Werror -O2 -I include -o "$out/$program" "$file" -L target/staticlib "$@"
}

for archive in formula_c formula_bare; do
    build_c "remainder_$archive" tests/host/remainder.c -l"$archive" -lm
    "$out/remainder_$archive"
done

# Both libraries in one program.
build_c both tests/host/both.c -lformula_c -lformula_int_c -lm
"$out/both"

build_c bits tests/host/bits.c
"$out/bits"

for example in recipe cards scan night; do
    build_c "$example" "examples/$example.c" -lformula_c -lm
    build_c "${example}_bare" "examples/$example.c" -lformula_bare
    for program in "$example" "${example}_bare"; do
        "$out/$program" > "$out/$program.out"
        cmp "examples/$example.expected" "$out/$program.out"
        echo "$program prints $example.expected"
    done
done

"$out/host" "$@"
