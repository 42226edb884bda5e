#!/bin/sh
# Builds the library and measures it beside its rival, plain Rust: sh bench/run.sh [BATCHES [TEXTS]]
# A row is the least of so many batches; before that, both must agree on so many random texts. A part whose tool is missing is
# left out, and said so.
cd "$(dirname "$0")/.." || exit 1
library=target/staticlib
out=target/bench
# a controller of 100 MHz that does an instruction a cycle, for 50 ms
budget=5000000
mkdir -p "$out"
failed=0

have() {
    for tool in $1; do
        command -v "$tool" > /dev/null || { echo "$tool is missing: $2"; return 1; }
    done
}

fail() {
    echo "failed: $1"
    failed=1
}

build_library() {
    have rt "the library is taken as it lies in $library" || return
    sh include/build.sh || fail "include/build.sh"
}

# $1: the program to write, $2: the archive. One codegen unit, so that the rival loses nothing by being written in several files.
build() {
    rustc --edition 2021 -C opt-level=3 -C codegen-units=1 -L "$library" -l "static=formula_c:$2" -o "$out/$1" bench/main.rs
}

measure_times() {
    have "rustc cc" "no times" || return
    build bench formula_c || { fail "main.rs"; return; }
    "$out/bench" "$@" || fail "bench"
}

part() {
    echo "$1" | awk -v budget="$budget" '{ printf "%.1f", 100 * $1 / budget }'
}

# Valgrind counts each byte that `rep stosb` clears or `rep movsb` copies as an instruction; with these memset and memcpy are loops
# of stores, as they are on a controller.
tunables=glibc.cpu.x86_rep_stosb_threshold=100000000:glibc.cpu.x86_rep_movsb_threshold=100000000

# The instructions of one function of a scan.
counted() {
    GLIBC_TUNABLES=$tunables valgrind --tool=callgrind --callgrind-out-file=/dev/null \
        --toggle-collect="$2" "$out/bench_bare" scan "$1" 2>&1 |
        sed -n 's/.*Collected *: *//p'
}

count_instructions() {
    have "valgrind awk" "no instruction counts" || return
    echo
    echo "instructions of this machine, by callgrind, for a scan of forty formulas"
    echo "the last columns are the parts of $budget that run and store take without and with the check"
    printf '%-20s %12s %12s %12s %10s %12s\n' "" compile check "run, store" "run" "with check"
    most=0
    for name in $("$out/bench_bare" names); do
        "$out/bench_bare" scan "$name" || { fail "scan $name"; continue; }
        check=$(counted "$name" check_scan)
        both=$(counted "$name" run_scan)
        [ -n "$check" ] && [ -n "$both" ] || { fail "callgrind, $name"; continue; }
        run=$((both - check))
        printf '%-20s %12s %12s %12s %9s%% %11s%%\n' "$name" "$(counted "$name" compile_scan)" "$check" "$run" \
            "$(part "$run")" "$(part "$both")"
        [ "$both" -le "$most" ] || { most=$both; dearest=$name; }
    done
    [ "$most" = 0 ] || echo "the worst scan, $dearest, takes $(part "$most")% of $budget with the check"
}

text_of() {
    cc -O2 -I include -Wl,--gc-sections -o "$out/linked" -x c - -x none -L "$library" -lformula_bare && size "$out/linked" |
        awk 'NR == 2 { print $1 }'
}

measure_sizes() {
    have "size awk" "no sizes" || return
    echo
    size -t "$library/libformula_bare.a" |
        awk 'END { print "text of all " NR - 2 " members of libformula_bare.a: " $1 " bytes, data " $2 ", bss " $3 }'
    have cc "no size of what is linked" || return
    # what the operations add to a program that does nothing
    empty=$(echo 'int main(void) { return 0; }' | text_of)
    all=$(echo '#include "formula.h"
        int main(void) {
            static void (*volatile all[])(void) = {(void (*)(void))formula_compile, (void (*)(void))formula_check,
                (void (*)(void))formula_run, (void (*)(void))formula_compile_and_run, (void (*)(void))formula_compile_target,
                (void (*)(void))formula_evaluate, (void (*)(void))formula_store};
            return all[0] == 0;
        }' | text_of)
    echo "text that the operations add to a program: $((all - empty)) bytes"
}

measure_stacks() {
    # symbols are resolved at the start, so that no call pays for that
    cc -std=gnu11 -Wall -Wextra -O2 -I include -Wl,-z,now -o "$out/stack" bench/stack.c -L "$library" -lformula_bare ||
        { fail "stack.c"; return; }
    echo
    echo "deepest stack:"
    "$out/bench_bare" inputs | "$out/stack" || fail "stack"
}

# Counts, stacks and sizes are of the archive that a controller takes, with its own remainder.
measure_bare() {
    have "rustc cc" "no instruction counts and stack depths" || return
    build bench_bare formula_bare || { fail "main.rs"; return; }
    count_instructions
    measure_stacks
}

build_library
measure_times "$@"
measure_bare
measure_sizes
exit $failed
