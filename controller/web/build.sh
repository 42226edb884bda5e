#!/bin/sh
# Links the archive for wasm32 into a module for node and browsers: sh controller/web/build.sh
#   target/controller/web/formula.wasm; formula.mjs, which calls it, and header.mjs, what that takes of the header
# It imports nothing. Its exports are the functions of include/formula.h, its memory, and where that is free.
set -eu
cd "$(dirname "$0")/../.."
. controller/tools.sh
mkdir -p "$out/web"
archive=$out/wasm32/libformula_c.a
exports=$(from_header names "$archive" | sed 's/^/--export=/')
# shellcheck disable=SC2086
"$(kit_tool wasm-ld)" --no-entry --gc-sections --strip-all -z stack-size=262144 --export=__heap_base $exports \
    -o "$out/web/formula.wasm" --whole-archive "$archive"
cp controller/web/formula.mjs "$out/web/"
from_header module "$archive" > "$out/web/header.mjs"
