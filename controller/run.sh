#!/bin/sh
# The proved library on 32-bit machines and in the web, from the proof to tested archives: sh controller/run.sh [TARGET...]
# Proves the libraries of archives.txt and writes target/controller/TARGET/libLIBRARY.a for the targets of targets.txt (all, if none is named),
# then tests each on its emulated board: some minutes, behind the proof. What a missing tool would do is left out, and said so; docs/CONTROLLER.md names
# the tools.
set -u
cd "$(dirname "$0")/.." || exit 1
. controller/tools.sh
only=" ${*:-$(target_names | tr '\n' ' ')} "
for name in $only; do
    target_names | grep -qx "$name" || { echo "no target is named $name; there are: $(target_names | paste -s -d ' ')" >&2; exit 2; }
done
failed=0

fail() {
    echo "FAILED: $1"
    failed=1
}

chosen() {
    case $only in *" $1 "*) return 0 ;; *) return 1 ;; esac
}

# Those that were asked for.
chosen_archives() {
    list_archives | while read -r library target rest; do
        ! chosen "$target" || echo "$library $target $rest"
    done
}

keep_modules() {
    have rt "everything is" || exit 1
    for library in $(cut -d ' ' -f 1 "$out/archives" | sort -u); do
        echo "== $library is proved, with all that it uses, and its module kept: the first time that takes many minutes"
        sh controller/module/capture.sh "$library" > "$out/capture.out" 2>&1 || { tail -5 "$out/capture.out"; fail "$library"; exit 1; }
        # from nothing there is such a line for each crate; the library's own is the last
        grep '^logic=' "$out/capture.out" | tail -1
    done
}

# The calls that are replayed, and the scans that are counted, come from this machine.
prepare() {
    echo "== calls recorded on this machine, to be replayed on the others"
    have "rustc cc ar objcopy" "replays and counts are" || return
    sh controller/calls/record.sh || fail "recording"
    rustc --edition 2021 -O -L target/staticlib -o "$out/bench" bench/main.rs || { fail "bench/main.rs"; return; }
    "$out/bench" inputs > "$out/inputs" || fail "the scans"
}

# $1: library, $2: target, $3: numbers, $4: firmware
make_and_test() {
    echo "== $1 on $2"
    sh controller/module/archive.sh "$1" "$2" || { fail "the archive of $1 for $2"; return; }
    sh controller/module/wants.sh "$2" "$out/$2/lib$1.a" "$3" || fail "what $1 wants on $2"
    case $2 in
    wasm32) test_web ;;
    *) test_board "$1" "$2" "$4" ;;
    esac
}

test_board() {
    have "$(target_tool "$2" cross) $(target_tool "$2" board)" "the board's tests on $2 are" || return
    sh controller/board/firmware.sh "$2" "$1" "$3" || fail "examples/$3.c on $2"
    if [ "$1" != formula_c ]; then
        sh controller/board/replay.sh "$2" "$1" || fail "the calls of $1 on $2"
        return
    fi
    sh controller/board/test.sh "$2" || fail "tests on $2"
    sh controller/count/count.sh "$2" || fail "counting on $2"
}

test_web() {
    sh controller/web/build.sh || { fail "formula.wasm"; return; }
    echo "wasm32: formula.wasm has $(wc -c < "$out/web/formula.wasm") bytes"
    have node "the test of formula.wasm is" || return
    calls=
    [ ! -s "$out/calls/formula_c.bin" ] || calls=$out/calls/formula_c.bin
    # shellcheck disable=SC2086
    node controller/web/test.mjs "$PWD/$out/web" crates/vector_cases/stdin crates/vector_cases/stdout $calls || fail "formula.wasm"
}

measure_memory() {
    echo "== the stack of every operation, and the RAM of a whole application"
    # shellcheck disable=SC2086
    sh controller/count/stack.sh $only || fail "the depths of stacks"
    sh controller/count/ram.sh || fail "the sum of RAM"
}

test_controls() {
    have "arm-none-eabi-gcc qemu-system-arm" "the controls are" || return
    echo "== controls: each mistake must be noticed"
    sh controller/board/controls.sh || fail "a control"
}

chosen_archives > "$out/archives"
keep_modules
prepare
while read -r library target numbers firmware; do
    make_and_test "$library" "$target" "$numbers" "$firmware" < /dev/null
done < "$out/archives"
measure_memory
! chosen m4f || test_controls
if [ "$failed" -eq 0 ]; then
    echo "all is as on x86-64:${only% }"
    [ "$left_out" -eq 0 ] || echo "but not all was tested: see what is missing, above"
fi
exit "$failed"
