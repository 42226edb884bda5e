#!/bin/sh
# Replays on an emulated board the calls of a library that record.sh recorded, if it did: sh controller/board/replay.sh TARGET LIBRARY [ARCHIVE.a]
# MORE names another file to link.
set -eu
cd "$(dirname "$0")/../.."
. controller/tools.sh
target=$1 library=$2
archive=${3:-$out/$target/lib$library.a}
work=$out/$target/$library
calls=$out/calls/$library.bin
mkdir -p "$work"
[ -s "$calls" ] || { echo "$target: no calls of $library on x86-64 to replay"; exit 0; }
from_header replay "$archive" > "$work/operations.inc"
CFLAGS="-I $work ${CFLAGS:-}" sh controller/board/build.sh "$target" "$work/replay.elf" "$archive" "controller/calls/replay.c ${MORE:-}" "$calls"
sh controller/board/emulate.sh "$target" "$work/replay.elf" > "$work/replayed" && failed=0 || failed=1
sed "s/^/$target: $library: /" "$work/replayed"
exit $failed
