#!/bin/sh
# What compile, check and run cost on a target: sh controller/count/count.sh TARGET [ARCHIVE.a]
# For scans of forty formulas, those of bench/: instructions by QEMU, and on a Cortex-M4 cycles by counter.c's estimate, with the share of 50 ms
# at 100 MHz that a run with its check takes. PROFILE=1 also lists the functions that take most of all cycles.
set -eu
cd "$(dirname "$0")/../.."
. controller/tools.sh
target=$1
archive=${2:-$out/$target/libformula_c.a}
work=$out/$target/count
inputs=$out/inputs
budget=5000000
mkdir -p "$work"
have "cc $(target_tool "$target" cross) $(target_tool "$target" board)" "counting on $target is" || exit 0
[ -s "$inputs" ] || { echo "$inputs is missing: counting on $target is left out"; exit 0; }

cc -shared -fPIC -O2 -Wall -Wextra -o "$work/counter.so" controller/count/counter.c
sh controller/board/build.sh "$target" "$work/scans.elf" "$archive" controller/count/scans.c "$inputs"
nm=$(target_tool "$target" cross | sed 's/gcc$/nm/')
address() { "$nm" "$work/scans.elf" | awk -v name="$1" '$3 == name { print $1 }'; }
words=$PWD/$work/counter.so,begin=$(address count_begin),end=$(address count_end),out=$work/counts
[ -z "${PROFILE:-}" ] || words="$words,profile=$work/profile"
sh controller/board/emulate.sh "$target" "$work/scans.elf" -plugin "$words" > "$work/scans"

# Three lines of counts belong to each scan.
echo "scans of forty formulas on $target: instructions of each operation; on a Cortex-M cycles too, and the shares of 50 ms at 100 MHz"
paste -d ' ' - - - < "$work/counts" | paste -d ' ' "$work/scans" - | awk -v target="$target" -v budget="$budget" '
    BEGIN {
        cycles = target ~ /^m/
        printf "%-20s %10s %10s %10s", "", "compile", "check", "run"
        print cycles ? sprintf("  %10s %10s %10s %9s %9s", "compile", "check", "run", "compile", "run") : ""
    }
    {
        n = NF - 5
        printf "%-20s %10d %10d %10d", $1, $(n), $(n + 2), $(n + 4)
        if (cycles) printf "  %10d %10d %10d %8.1f%% %8.1f%%", $(n + 1), $(n + 3), $(n + 5), 100 * $(n + 1) / budget, 100 * $(n + 5) / budget
        print ""
    }'

[ -z "${PROFILE:-}" ] || { "$nm" -n "$work/scans.elf" | awk -f controller/count/profile.awk - "$work/profile" | sort -rn | head -20; }
