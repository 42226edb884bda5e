#!/bin/sh
# Tries the program `replay` on logs that its window of 65,536 bytes does not hold, and on files and logs that it cannot read: sh tests/host/windows.sh
set -eu
here=$(cd "$(dirname "$0")/../.." && pwd -P)
dir=$(mktemp -d)
trap 'rm -rf "$dir"' EXIT
book=$here/crates/replay/data/book
tried=0

# so many times a line
repeated() {
    awk -v n="$1" -v line="$2" 'BEGIN { for (i = 0; i < n; i++) print line }'
}

replay() {
    "$here/formula" replay "$book"
}

# what was printed is what is expected; $1: what is tried
holds() {
    cmp -s "$dir/expected" "$dir/printed" || { echo "replay: $1" >&2; exit 1; }
    tried=$((tried + 1))
}

first='answer=0\nplace=0\nD41=-256\n'
second='answer=0\nplace=0\nC3=1\n'

# the tick and D41 of the first window are those of a run behind its edge, wherever the edge falls in a line
for pad in 0 1 2 3 4 5 6 7 8 9; do
    { printf 'tick=0xFFFFFF00\nrun=1\ntick=0x000004DC\n'; repeated "$pad" 'V1=1'; repeated 7000 'D7=123456'; printf 'run=2\n'; } > "$dir/log"
    printf "$first$second" > "$dir/expected"
    replay < "$dir/log" > "$dir/printed"
    holds "an edge, $pad lines before"
    cat "$dir/log" | replay > "$dir/printed"
    holds "an edge, $pad lines before, through a pipe"
done

# more is printed than there is room for at once
{ printf 'tick=0xFFFFFF00\nrun=1\ntick=0x000004DC\n'; repeated 30000 'run=2'; } > "$dir/log"
{ printf "$first"; repeated 30000 'answer=0\nplace=0\nC3=1'; } > "$dir/expected"
replay < "$dir/log" > "$dir/printed"
holds "thirty thousand runs"

# a log in pieces
{ printf 'tick=0xFFFF'; sleep 1; printf 'FF00\nrun=1\nti'; sleep 1; printf 'ck=0x000004DC\nrun=2\n'; } | replay > "$dir/printed"
printf "$first$second" > "$dir/expected"
holds "pieces"

# a line that is longer than the window, with its end and without; behind the edge too
long=$(awk 'BEGIN { for (i = 0; i < 70000; i++) printf "x" }')
for end in '\n' ''; do
    { printf 'run=9\n'; printf '%s' "$long"; printf "$end"; } > "$dir/log"
    printf 'unknown=9\nanswer=16\nplace=6\n' > "$dir/expected"
    replay < "$dir/log" > "$dir/printed"
    holds "a long line"
    { repeated 7000 'D7=123456'; printf '%s' "$long"; printf "$end"; } > "$dir/log"
    printf 'answer=16\nplace=70000\n' > "$dir/expected"
    replay < "$dir/log" > "$dir/printed"
    holds "a long line behind the edge"
done

# a last line without its end, and a bad line behind the edge with a run behind it
{ repeated 7000 'D7=123456'; printf 'run=9'; } > "$dir/log"
printf 'answer=16\nplace=70000\n' > "$dir/expected"
replay < "$dir/log" > "$dir/printed"
holds "no last end"
{ repeated 7000 'D7=123456'; printf 'run=9\nrun=0\nrun=9\n'; } > "$dir/log"
printf 'unknown=9\nanswer=16\nplace=70006\n' > "$dir/expected"
replay < "$dir/log" > "$dir/printed"
holds "a bad line behind the edge"

# what cannot be opened or read
printf 'unopened=\n' > "$dir/expected"
"$here/formula" replay < /dev/null > "$dir/printed"
holds "no argument"
printf 'unopened=a\n' > "$dir/expected"
"$here/formula" replay a b < /dev/null > "$dir/printed"
holds "two arguments"
printf 'unopened=%s/none\n' "$dir" > "$dir/expected"
"$here/formula" replay "$dir/none" < /dev/null > "$dir/printed"
holds "no file"
printf 'unopened=%s\n' "$dir" > "$dir/expected"
"$here/formula" replay "$dir" < /dev/null > "$dir/printed"
holds "a folder"
awk 'BEGIN { for (i = 0; i < 262145; i++) printf "x" }' > "$dir/large"
printf 'limit=262144\n' > "$dir/expected"
"$here/formula" replay "$dir/large" < /dev/null > "$dir/printed"
holds "a large file"
head -c 262144 "$dir/large" > "$dir/most"
printf 'answer=16\nplace=0\n' > "$dir/expected"
"$here/formula" replay "$dir/most" < /dev/null > "$dir/printed"
holds "the largest file"
printf 'unread=0\n' > "$dir/expected"
replay < "$dir" > "$dir/printed"
holds "a log that cannot be read"
: > "$dir/expected"
replay < /dev/null > "$dir/printed"
holds "an empty log"

echo "replay: $tried logs and files, 0 differences"
