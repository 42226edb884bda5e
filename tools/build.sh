#!/bin/sh
# Proves and builds programs and static libraries: sh tools/build.sh NAME..
#   target/bin/NAME             a program
#   target/staticlib/libNAME.a  a static library
# The first time takes minutes. What `rt` kept of a crate in its folder out/ is not proved again.
set -eu
cd "$(dirname "$0")/.."
mkdir -p target/bin target/staticlib
for name in "$@"; do
    crate=crates/$name
    if [ -f "$crate/src/main.rt" ]; then
        # A program is built to be run: what it answers to no input is of no use here, and a failed proof leaves none.
        rm -f "$crate/out/$name"
        (cd "$crate" && rt run < /dev/null > /dev/null) || [ -x "$crate/out/$name" ]
        cp "$crate/out/$name" "target/bin/$name"
    else
        (cd "$crate" && rt lib)
        cp "$crate/out/lib$name.a" "target/staticlib/lib$name.a"
    fi
done
