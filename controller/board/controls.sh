#!/bin/sh
# Controls: with a mistake put in, the tests of a Cortex-M4F must fail: sh controller/board/controls.sh
set -eu
cd "$(dirname "$0")/../.."
. controller/tools.sh
failed=0

# $1: the mistake, the rest: the tests with it
must_fail() {
    mistake=$1
    shift
    if "$@" > "$out/control"; then
        echo "control: $mistake: NOT NOTICED"
        failed=1
    else
        echo "control: $mistake: noticed"
    fi
}

must_fail "subnormals flushed to zero" env CFLAGS=-DFLUSH_TO_ZERO sh controller/board/test.sh m4f
grep -E 'FAILED|replayed|pairs' "$out/control" | sed 's/^/    /; s/ FAILED,//'
REMAINDER=naive_remainder sh controller/module/archive.sh formula_c m4f "$out/m4f/naive.a"
must_fail "% of reals sent to another function" env MORE=controller/board/naive_remainder.c sh controller/board/test.sh m4f "$out/m4f/naive.a"
grep -E 'FAILED|replayed|pairs' "$out/control" | sed 's/^/    /; s/ FAILED,//'

# Each line is no part of a module that means the same everywhere.
refused() {
    printf 'define void @function(ptr %%a0, i64 %%a1) {\n  %s\n  ret void\n}\n' "$1" > "$out/unknown.ll"
    must_fail "in the module: $1" awk -v remainder=formula_remainder -f controller/module/retarget.awk "$out/unknown.ll" 2> /dev/null
}
refused '%r0 = ptrtoint ptr %a0 to i64'
refused '%r0 = inttoptr i64 %a1 to ptr'
refused 'call void asm "cli", ""()'
refused '%r0 = alloca x86_fp80, align 16'
refused '%r0 = load <4 x i32>, ptr %a0, align 16'
refused '%r0 = frem double 1.0, 2.0'
printf 'declare float @fmodf(float, float)\n' > "$out/unknown.ll"
must_fail "in the module: a function of others" awk -v remainder=formula_remainder -f controller/module/retarget.awk "$out/unknown.ll" 2> /dev/null
exit $failed
