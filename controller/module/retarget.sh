#!/bin/sh
# Writes a captured module as text for a target: sh controller/module/retarget.sh CRATE TARGET OUT.ll
# retarget.awk says what changes and what is refused. Layout and triple are those that the kit's clang gives an empty program of the target.
# REMAINDER names another function for `%` of reals: a control of the tests does that.
set -eu
cd "$(dirname "$0")/../.."
. controller/tools.sh
module=$out/module/$1
clang=$(kit_tool clang)
# shellcheck disable=SC2046
empty=$("$clang" --no-default-config $(target_words "$2" clang) -x c -S -emit-llvm -o - - < /dev/null)
line() { echo "$empty" | grep "^target $1"; }
"$clang" --no-default-config --target=x86_64-unknown-linux-gnu -x ir -S -emit-llvm -Xclang -disable-llvm-passes -o "$module.ll" "$module.bc"
awk -v layout="$(line datalayout)" -v triple="$(line triple)" -v remainder="${REMAINDER:-formula_remainder}" \
    -f controller/module/retarget.awk "$module.ll" > "$3"
