#!/bin/sh
# Makes the page, one file with the box's module inside it: sh viewer/build.sh [FOLDER]
#   viewer/formula.html
# FOLDER has formula.wasm, formula.mjs and header.mjs, which are taken as they are. Without it they are those of target/controller/web, and what is missing
# there, or older than what it is made of, is made first by the scripts of controller/: the proof of the library, its archive for wasm32, and the module.
set -eu
cd "$(dirname "$0")/.."
from=${1:-target/controller/web}

# $1: a file, then what it is made of: whether it is missing, or older than any of that
old() {
    made=$1
    shift
    [ ! -s "$made" ] || [ -n "$(find "$@" -type f -newer "$made" -print -quit)" ]
}

make_module() {
    captured=target/controller/module/formula_c.bc archive=target/controller/wasm32/libformula_c.a
    if old "$captured" crates crates.txt; then
        command -v rt > /dev/null || { echo "rt is missing: it proves the library of which the module is made" >&2; exit 1; }
        echo "formula_c is proved, with all that it uses, and its module kept: the first time that takes many minutes"
        sh controller/module/capture.sh formula_c
    fi
    ! old "$archive" "$captured" controller/module controller/targets.txt || sh controller/module/archive.sh formula_c wasm32
    ! old "$from/header.mjs" "$archive" controller/web controller/header include || sh controller/web/build.sh
}

[ $# -gt 0 ] || make_module
for file in formula.wasm formula.mjs header.mjs; do
    [ -s "$from/$file" ] || { echo "$from/$file is missing: sh viewer/build.sh, without a folder, makes it" >&2; exit 1; }
done
out=target/viewer
mkdir -p "$out"

# One script: the imports go, since the modules stand one behind the other, and so do the exports.
{
    sed 's/^export //' "$from/header.mjs"
    sed '/^import /d; /^export \*/d; s/^export //' "$from/formula.mjs"
    cat viewer/viewer.js
} > "$out/script.js"
base64 -w 0 "$from/formula.wasm" > "$out/module.txt"

awk -v out="$out" '
    function insert(file,    line) { while ((getline line < file) > 0) print line; close(file) }
    /^@STYLE@$/ { insert("viewer/style.css"); next }
    /^@SCRIPT@$/ { insert(out "/script.js"); next }
    index($0, "@MODULE@") { at = index($0, "@MODULE@"); getline module < (out "/module.txt")
        print substr($0, 1, at - 1) module substr($0, at + 8); next }
    { print }
' viewer/page.html > viewer/formula.html
echo "viewer/formula.html: $(wc -c < viewer/formula.html) bytes"
