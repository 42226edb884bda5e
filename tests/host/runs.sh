#!/bin/sh
# Holds the program `replay` to the program `formula`, run by run, on nights of random changes: sh tests/host/runs.sh [NIGHTS]
set -eu
here=$(cd "$(dirname "$0")/../.." && pwd -P)
dir=$(mktemp -d)
trap 'rm -rf "$dir"' EXIT
book=$here/tests/host/runs.book
runs=0

# sixty lines: cells changed, and cards of the file run, of which some are not there
night() {
    awk -v seed="$1" 'BEGIN {
        srand(seed)
        split("1 2 3 4 5 8 13 21 34 64", cards, " ")
        for (i = 0; i < 60; i++) {
            n = int(rand() * 4)
            if (n == 0) printf "D%d=%d\n", 254 * int(rand() * 2) + 1, int(rand() * 100000)
            if (n == 1) printf "V%d=%d\n", int(rand() * 2), int(rand() * 300)
            if (n == 2) printf "%s\n", rand() < 0.5 ? "X63=1" : rand() < 0.5 ? "R0=0x40490FDB" : "N1=" int(rand() * 300)
            if (n == 3) printf "run=%d\n", cards[1 + int(rand() * 10)]
        }
    }'
}

# what follows a key in the lines of a card
field() {
    awk -F= -v card="$1" -v key="$2" '$1 == "card" { here = $2 == card } here && $1 == key { print substr($0, length(key) + 2); exit }' "$book"
}

for seed in $(seq "${1:-8}"); do
    night "$seed" > "$dir/log"
    : > "$dir/cells"
    : > "$dir/expected"
    while IFS= read -r line; do
        case $line in
        run=*)
            target=$(field "${line#run=}" target)
            if [ -z "$target" ]; then
                echo "unknown=${line#run=}" >> "$dir/expected"
                continue
            fi
            { cat "$dir/cells"; echo "target=$target"; echo "expr=$(field "${line#run=}" expr)"; } | "$here/formula" > "$dir/reply"
            cat "$dir/reply" >> "$dir/expected"
            tail -n +3 "$dir/reply" >> "$dir/cells"
            runs=$((runs + 1))
            ;;
        *) echo "$line" >> "$dir/cells" ;;
        esac
    done < "$dir/log"
    "$here/formula" replay "$book" < "$dir/log" > "$dir/printed"
    cmp "$dir/expected" "$dir/printed" || { echo "night $seed differs from formula" >&2; exit 1; }
done
echo "$runs runs of replayed nights held to formula, 0 differ"
