#!/bin/sh
# The RAM of a whole application as one sum, as a table: sh controller/count/ram.sh
# Of examples/firmware.c on m4f and of examples/feeder.c on m0, from the programs that firmware.sh built and the depths that stack.sh measured.
set -eu
cd "$(dirname "$0")/../.."
. controller/tools.sh
work=$out/ram
mkdir -p "$work"

# The bytes of a variable of a program. $1: program, $2: its name
bytes_of() {
    hex=$("$nm" -S "$1" | awk -v name="$2" '$4 == name { print $2 }')
    echo $((0x$hex))
}

# The deepest call of the operations that the examples call; the words of an answer take less. $1: library, $2: target, $3: ", short" or nothing
deepest_call() {
    grep -E "^formula_(int_)?(compile|compile_target|run)$3 +[0-9]" "$out/stack/$1.$2" | sed 's/ bytes.*//; s/.* //' | sort -n | tail -1
}

# All frames of the program's and the board's functions, as the compiler says, which no chain of their calls exceeds. $1: target, $2: example
own_frames() {
    for file in "examples/$2.c" controller/board/mps2.c; do
        # shellcheck disable=SC2046
        $(target_words "$1" cross) -std=c11 -O2 -fstack-usage -I include -I controller/board -c -o "$work/$(basename "$file" .c).o" "$file"
        cat "$work/$(basename "$file" .c).su"
    done | awk -F '\t' '{ sum += $2 } END { print sum }'
}

# What the processor itself pushes for an interrupt, its alignment included: 8 words, and 18 more where there is an FPU.
pushed_words() {
    case $1 in m4f) echo 27 ;; *) echo 9 ;; esac
}

# A line of numbers, in the order of the table's rows. $1: library, $2: target, $3: example
column() {
    program=$out/$2/$3.elf
    nm=$(target_tool "$2" cross | sed 's/gcc$/nm/')
    data=$("$(kit_tool llvm-size)" "$program" | awk 'NR == 2 { print $2 + $3 }')
    memory=$(bytes_of "$program" memory) code=$(bytes_of "$program" kept_code) buffer=$(bytes_of "$program" buffer)
    call=$(deepest_call "$1" "$2" "") short=$(deepest_call "$1" "$2" ", short")
    own=$(own_frames "$2" "$3") interrupt=$((4 * $(pushed_words "$2")))
    rest=$((data + own + interrupt))
    echo "$memory $code $buffer $((data - memory - code - buffer)) $own $interrupt $call $((rest + call)) $short $((rest + short))"
}

for wanted in m4f/firmware.elf m0/feeder.elf stack/formula_c.m4f stack/formula_int_c.m0; do
    [ -s "$out/$wanted" ] || { echo "$out/$wanted is missing: the sum of RAM is left out"; exit 0; }
done
box=$(column formula_c m4f firmware)
feeder=$(column formula_int_c m0 feeder)
echo "$box $feeder" | awk "$shown"'
    BEGIN {
        print "| RAM, bytes | dosing box, m4f | yarn feeder, m0 |\n|---|---|---|"
        rows = split("the memory|code of all formulas, set aside|one buffer to compile into|lines, counters, the rest of the data|" \
            "stack: the program\047s own functions|stack: an interrupt|stack: the deepest call of the library|sum|" \
            "stack: the deepest call with short formulas|sum with short formulas", row, "|")
    }
    { for (i = 1; i <= rows; i++) print "| " row[i] " | " shown($i) " | " shown($(i + rows)) " |" }'
