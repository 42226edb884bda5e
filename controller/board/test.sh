#!/bin/sh
# Tests an archive on its emulated board: sh controller/board/test.sh TARGET [ARCHIVE.a]
# The gate's vectors, examples/recipe.c, the remainder beside the C library's fmodf, and the recorded calls. MORE names another file to link.
set -eu
cd "$(dirname "$0")/../.."
. controller/tools.sh
target=$1
archive=${2:-$out/$target/libformula_c.a}
work=$out/$target/test
mkdir -p "$work"
failed=0

# $1: what it is, $2: what it must print, $3: its file, the rest: its words
prints() {
    what=$1 expected=$2 file=$3
    shift 3
    sh controller/board/build.sh "$target" "$work/program.elf" "$archive" "$file ${MORE:-}" "$@"
    status=0
    sh controller/board/emulate.sh "$target" "$work/program.elf" > "$work/printed" || status=$?
    if [ "$status" -eq 0 ] && cmp -s "$work/printed" "$expected"; then
        echo "$target: $what: as expected"
        return
    fi
    failed=1
    if [ "$status" -eq 0 ]; then
        echo "$target: $what: FAILED, $(diff "$work/printed" "$expected" | grep -c '^<') lines differ"
    else
        echo "$target: $what: FAILED, it ended with status $status"
    fi
}

prints "the gate's vectors" crates/vector_cases/stdout controller/board/vectors.c crates/vector_cases/stdin
prints examples/recipe.c examples/recipe.expected examples/recipe.c

# 204,800 pairs
LIBRARIES=-lm sh controller/board/build.sh "$target" "$work/remainder.elf" "$archive" "tests/host/remainder.c ${MORE:-}" 50
sh controller/board/emulate.sh "$target" "$work/remainder.elf" > "$work/remainders" || failed=1
tail -1 "$work/remainders" | sed "s/^/$target: /"

sh controller/board/replay.sh "$target" formula_c "$archive" || failed=1
exit $failed
