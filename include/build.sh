#!/bin/sh
# Proves the libraries for C and writes their archives: sh include/build.sh
#   target/staticlib/libformula_c.a      `%` of reals calls the C library's fmodf: link with -lm
#   target/staticlib/libformula_bare.a   `%` calls formula_remainder: no library, only memset and memcpy
#   target/staticlib/libformula_int_c.a  the profile without reals: only memset and memcpy, and no floating point
set -e
cd "$(dirname "$0")/.."
out=target/staticlib
for tool in rt objcopy objdump nm awk; do
    command -v "$tool" > /dev/null || { echo "$tool is missing" >&2; exit 1; }
done
sh tools/build.sh formula_c formula_int_c
objcopy --redefine-sym fmodf=formula_remainder "$out/libformula_c.a" "$out/libformula_bare.a"

# what no member of an archive defines
outside() {
    nm "$1" | awk '$1 == "U" { used[$2] } NF == 3 { defined[$3] } END { for (name in used) if (!(name in defined)) print name }'
}

for library in formula_bare formula_int_c; do
    for name in $(outside "$out/lib$library.a"); do
        case $name in
        memset | memcpy) ;;
        *) echo "lib$library.a calls $name" >&2; exit 1 ;;
        esac
    done
done
sh include/integers.sh "$out/libformula_int_c.a"
