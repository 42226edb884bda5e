# shellcheck shell=sh
# For the scripts of this folder, which source it from the repository's root: folders, the kit's tools, and a word where a tool is missing.
out=target/controller
kit=$(dirname "$(dirname "$(readlink -f "$(command -v rt || echo /rt/is/missing)")")")
mkdir -p "$out"

# The kit's clang is a whole set of tools, each under its own name.
kit_tool() {
    mkdir -p "$out/bin"
    ln -sf "$kit/toolchain/bin/clang" "$out/bin/$1"
    echo "$out/bin/$1"
}

# $1: tools, $2: what is left out without them; left_out then says so to whoever asks at the end
left_out=0
have() {
    for tool in $1; do
        command -v "$tool" > /dev/null || { echo "$tool is missing: $2 left out"; left_out=1; return 1; }
    done
}

# Writes what header.awk makes of the headers for the functions of an archive. $1: what, $2: the archive
from_header() {
    names=$("$(kit_tool llvm-nm)" --defined-only "$2" 2> /dev/null | awk 'NF == 3 && $2 == "T" { print $3 }' | tr '\n' ' ')
    awk -v write="$1" -v defined="$names" -f controller/header/header.awk include/formula.h include/formula_int.h
}

target_names() {
    awk '$1 == "target" { print $2 }' controller/targets.txt
}

# $1: a target of targets.txt, $2: clang, cross or board; its words
target_words() {
    awk -v name="$1" -v key="$2" '
        $1 == "target" { on = $2 == name }
        on && $1 == key { sub(/^[a-z]+ /, ""); print; found = 1 }
        END { exit !found }' controller/targets.txt
}

# The first of those words, which is a tool.
target_tool() {
    target_words "$1" "$2" | cut -d ' ' -f 1
}

# LIBRARY TARGET NUMBERS FIRMWARE, a line for each archive of archives.txt
list_archives() {
    awk -F ' *[|] *' '!/^#/ { n = split($2, targets, " "); for (i = 1; i <= n; i++) print $1, targets[i], $3, $4 }' controller/archives.txt
}

# A function for awk: a number with its commas.
# shellcheck disable=SC2034
shown='function shown(n) { n = n ""; while (n ~ /[0-9][0-9][0-9][0-9]/) sub(/[0-9][0-9][0-9]($|,)/, ",&", n); return n }'
