#!/bin/sh
# Builds a firmware of examples/ for an emulated board, runs it and compares what it writes to the serial port with what is stored:
# sh controller/board/firmware.sh TARGET [LIBRARY [EXAMPLE]], formula_c and firmware if none is named
# Linked are the archive, the board's file, the compiler's run-time, and of the C library what these want.
set -eu
cd "$(dirname "$0")/../.."
. controller/tools.sh
target=$1 library=${2:-formula_c} example=${3:-firmware}
work=$out/$target
cross=$(target_words "$target" cross)
case $cross in
arm-*)
    board=controller/board/mps2.c
    words='-nostdlib -T controller/board/mps2.ld -Wl,--no-warn-rwx-segments,--no-warn-execstack'
    libraries='-lc -lgcc'
    ;;
riscv64-*)
    board='controller/board/virt.c controller/board/memset.c'
    words='--specs=picolibc.specs -mcmodel=medany -Wl,--defsym=__flash=0x80000000,--defsym=__flash_size=4M'
    words="$words -Wl,--defsym=__ram=0x80400000,--defsym=__ram_size=8M,--defsym=__stack_size=128K"
    libraries=
    ;;
esac
# shellcheck disable=SC2086
$cross -std=c11 -O2 -Wall -Wextra -Werror -ffunction-sections -fdata-sections -Wl,--gc-sections $words -I include -I controller/board \
    -o "$work/$example.elf" "examples/$example.c" $board "$work/lib$library.a" $libraries
if ! SERIAL=stdio sh controller/board/emulate.sh "$target" "$work/$example.elf" > "$work/$example.out" ||
    ! cmp "$work/$example.out" "examples/$example.expected"; then
    echo "$target: examples/$example.c: FAILED"
    cat "$work/$example.out"
    exit 1
fi
echo "$target: examples/$example.c: as expected"
"$(kit_tool llvm-size)" "$work/$example.elf" | awk -v target="$target" 'NR == 2 { print target ": it has " $1 " bytes of text, " $2 + $3 " of data" }'
