#!/bin/sh
# Compiles a captured module into an archive for a target: sh controller/module/archive.sh CRATE TARGET [ARCHIVE.a]
#   target/controller/TARGET/libCRATE.a, if no other is named, and beside it the module as text (.ll) and compiled (.o)
# The words for clang are those with which the kit compiles it for x86-64, the processor's aside.
set -eu
cd "$(dirname "$0")/../.."
. controller/tools.sh
crate=$1 target=$2
archive=${3:-$out/$target/lib$crate.a}
module=${archive%.a}
mkdir -p "$out/$target"
sh controller/module/retarget.sh "$crate" "$target" "$module.ll"
# shellcheck disable=SC2046
"$(kit_tool clang)" --no-default-config $(target_words "$target" clang) -ffunction-sections -fdata-sections -mllvm -trap-unreachable \
    -mllvm -no-trap-after-noreturn -Werror -O3 -c -x ir "$module.ll" -o "$module.o"
rm -f "$archive"
"$(kit_tool llvm-ar)" rcs "$archive" "$module.o"
