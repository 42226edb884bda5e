#!/bin/sh
# At dawn: salvages a book of cards, shows what was left out, and reads what was kept: sh examples/salvage.sh BOOK KEPT LEFT-OUT
set -eu
here=$(cd "$(dirname "$0")/.." && pwd -P)
"$here/formula" salvage < "$1" > "$2" 2> "$3"
cat "$3"
if grep -q -e '^limit=' -e '^unread=' -e '^unwritten=' "$3"; then
    echo "$2 is not to be used" >&2
    exit 1
fi
# the kept bytes and those left out are the book's: else the list of what was left out is not whole
left=$(sed -n 's/^length=//p' "$3" | awk '{ sum += $1 } END { print sum + 0 }')
if [ "$(($(wc -c < "$2") + left))" -ne "$(wc -c < "$1")" ]; then
    echo "$3 does not name all that was left out" >&2
    exit 1
fi
"$here/formula" cards < "$2"
