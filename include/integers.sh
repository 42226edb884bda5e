#!/bin/sh
# Says whether an archive for x86-64 is free of floating point: sh include/integers.sh ARCHIVE.a
# Lists its instructions and what it calls, and fails on any that works on floats. A register that floats use may hold bytes on their way from one
# place to another, so with such a register these are let pass: moves, and operations on bits or on vectors of integers. All others are refused without being
# named, and so is every instruction of the old floating-point unit, whose names begin with f, and every call of the C library's fmod.
set -eu
archive=$1
found=$(objdump -d --no-show-raw-insn "$archive" | awk '
    /^ +[0-9a-f]+:/ {
        name = $2
        while (name ~ /^(data16|cs|ds|es|ss|rep[a-z]*|lock|notrack|bnd)$/) { $2 = ""; $0 = $0; name = $2 }
        seen++
        floats = /%([xyz]mm|mm|st)/
        passes = name ~ /^v?(mov(aps|ups|apd|upd|dqa|dqu|d|q|hps|lps|hlps|lhps|hpd|lpd|ntps|ntdq|ss|sd)|(xor|or|and|andn)p[sd]|p[a-eg-z][a-z]*)$/
        if ((floats && !passes) || name ~ /^f/) print name
    }
    END { if (!seen) print "no instruction at all" }' | sort | uniq -c | sort -rn)
calls=$(nm "$archive" | awk '$1 == "U" && $2 ~ /^(fmod|remainder|__(add|sub|mul|div|eq|lt|gt|fix|float|ext|trunc)[a-z]*[sd]f)/ { print $2 }')
[ -z "$found$calls" ] || { printf '%s works on floats:\n%s\n%s\n' "$(basename "$archive")" "$found" "$calls"; exit 1; }
echo "$(basename "$archive") has no instruction that works on floats: $(size "$archive" | awk 'NR > 1 { text += $1 } END { print text }') bytes of text"
