#!/bin/sh
# Builds a program of tests, with the C library's files on the host, for an emulated board: sh controller/board/build.sh TARGET PROGRAM.elf ARCHIVE.a
# "FILE.c ..." [WORDS...]. WORDS become those of its main. CFLAGS adds words for the compiler, LIBRARIES for the linker.
set -eu
cd "$(dirname "$0")/../.."
. controller/tools.sh
target=$1 program=$2 archive=$3 files=$4
shift 4
words=
for word in "$@"; do words="$words\"$word\", "; done
cross=$(target_words "$target" cross)
work=$(mktemp -d)
trap 'rm -rf "$work"' EXIT

case $cross in
arm-*)
    board=controller/board/mps2.c
    start='-nostartfiles -T controller/board/mps2.ld --specs=rdimon.specs -Wl,--no-warn-rwx-segments,--no-warn-execstack'
    specs=
    ;;
riscv64-*)
    board=controller/board/memset.c
    start='--oslib=semihost --crt0=hosted -Wl,--defsym=__flash=0x80000000,--defsym=__flash_size=4M,--defsym=__ram=0x80400000'
    start="$start -Wl,--defsym=__ram_size=8M,--defsym=__stack_size=1M"
    specs='--specs=picolibc.specs -mcmodel=medany'
    ;;
esac

# shellcheck disable=SC2086
compile() {
    $cross $specs -std=gnu11 -O2 -Wall -Wextra -ffunction-sections -fdata-sections -I include -I controller/board ${CFLAGS:-} "$@"
}
for file in $files; do
    compile -Dmain=program_main -c -o "$work/$(basename "$file" .c).o" "$file"
done
compile -DWORDS="$words" -c -o "$work/program.o" controller/board/program.c
compile -c -o "$work/board.o" "$board"
# shellcheck disable=SC2086
$cross $specs $start -Wl,--gc-sections -o "$program" "$work"/*.o "$archive" ${LIBRARIES:-}
