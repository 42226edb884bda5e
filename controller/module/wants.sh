#!/bin/sh
# Says how large an archive is and what it wants of others, and refuses what is not foreseen: sh controller/module/wants.sh TARGET ARCHIVE.a NUMBERS
# NUMBERS is `reals`, or `integers` for a library without real numbers, whose archive may want no floating-point routine.
set -eu
cd "$(dirname "$0")/../.."
. controller/tools.sh
target=$1 archive=$2 numbers=$3
memory='memset|memcpy|memmove|__aeabi_mem(set|clr|cpy|move)[48]?'
whole='__aeabi_(u?idiv|u?idivmod|u?ldivmod|lmul|llsl|llsr|lasr)|__(u?div|u?mod|mul|ashl|lshr|ashr)[sd]i3|__clz[sd]i2|__gnu_thumb1_case_[a-z]+'
reals='__aeabi_(f2d|dcmple|f[a-z]+|cf[a-z]+|u?i2f)|__[a-z]+sf2?|__[a-z]+sf(df|si|3)2?|__(add|sub|mul|div)sf3|__float(un)?sisf|__ledf2'
linker='__stack_pointer'
foreseen="$memory|$whole|$linker"
[ "$numbers" = integers ] || foreseen="$foreseen|$reals"
undefined=$("$(kit_tool llvm-nm)" -u "$archive" 2> /dev/null | awk '$1 == "U" { print $2 }' | sort -u)
text=$("$(kit_tool llvm-size)" "$archive" 2> /dev/null | awk 'NR > 1 { text += $1; data += $2 + $3 } END { print text " bytes of text, " data " of data" }')
echo "$target: $(basename "$archive"): $text; wants $(echo "$undefined" | paste -s -d ' ')"
unforeseen=$(echo "$undefined" | grep -vxE "$foreseen" || true)
[ -z "$unforeseen" ] || { echo "$target: not foreseen: $unforeseen" >&2; exit 1; }
