#!/bin/sh
# Runs a program on its emulated board: sh controller/board/emulate.sh TARGET PROGRAM.elf [WORDS for QEMU...]
# Its exit status is the program's; what it prints comes to the standard output. SERIAL=stdio shows the serial port.
set -eu
cd "$(dirname "$0")/../.."
. controller/tools.sh
target=$1 program=$2
shift 2
# shellcheck disable=SC2046
exec timeout "${LIMIT:-900}" $(target_words "$target" board) -display none -monitor none -serial "${SERIAL:-none}" \
    -semihosting-config enable=on,target=native "$@" -kernel "$program" 2>&1
