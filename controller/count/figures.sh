#!/bin/sh
# Every table of figures of docs/CONTROLLER.md, as it stands there: sh controller/count/figures.sh [write]
# Of the archives, programs and counts that run.sh made last; the stacks are measured anew. With `write` each table takes the place of the one in the
# document that has the same first line.
set -eu
cd "$(dirname "$0")/../.."
. controller/tools.sh

# LIBRARY TARGET for each archive that is there
archives() {
    list_archives | while read -r library target _; do
        [ ! -s "$out/$target/lib$library.a" ] || echo "$library $target"
    done
}

print_sizes() {
    printf '| Archive | Target | Text, bytes |\n|---|---|---|\n'
    archives | while read -r library target; do
        "$(kit_tool llvm-size)" "$out/$target/lib$library.a" 2> /dev/null |
            awk -v row="| lib$library.a | $target |" "$shown"' NR == 2 { print row " " shown($1) " |" }'
    done
    [ ! -s "$out/web/formula.wasm" ] || wc -c < "$out/web/formula.wasm" | awk "$shown"'{ print "| formula.wasm | wasm32 | " shown($1) " |" }'
}

# The scans with their counts, three lines of which belong to each: name, then instructions and cycles of compile, check and run. $1: target
scans() {
    paste -d ' ' - - - < "$out/$1/count/counts" | paste -d ' ' "$out/$1/count/scans" - |
        awk '{ n = NF - 5; gsub(/-/, "_", $1); print $1, $(n), $(n + 1), $(n + 2), $(n + 3), $(n + 4), $(n + 5) }'
}

print_scans() {
    printf '\n| Scan | compile: instructions | cycles | share | check: instructions | cycles | run: instructions | cycles | share |\n'
    printf '|---|---|---|---|---|---|---|---|---|\n'
    scans m4f | awk -v budget=5000000 "$shown"'
        { gsub(/_/, " ", $1); compile = sprintf("%.1f%%", 100 * $3 / budget); run = sprintf("%.1f%%", 100 * $7 / budget)
          print "| " $1 " | " shown($2) " | " shown($3) " | " compile " | " shown($4) " | " shown($5) " | " shown($6) " | " shown($7) " | " run " |" }'
}

# Instructions of a run on every target that was counted.
print_runs() {
    counted=$(archives | awk '$1 == "formula_c" { print $2 }' | while read -r target; do [ ! -s "$out/$target/count/counts" ] || echo "$target"; done)
    printf '\n| Instructions of a run with its check |'
    for target in $counted; do printf ' %s |' "$target"; done
    printf '\n|---|'
    for target in $counted; do printf -- '---|'; done
    printf '\n'
    for target in $counted; do scans "$target"; done | awk "$shown"'
        { if (!($1 in row)) order[++n] = $1; row[$1] = row[$1] " " shown($6) " |" }
        END { for (i = 1; i <= n; i++) { name = order[i]; gsub(/_/, " ", name); print "| " name " |" row[order[i]] } }'
}

print_all() {
    print_sizes
    [ ! -s "$out/m4f/count/counts" ] || print_scans
    print_runs
    echo
    sh controller/count/stack.sh
    sh controller/count/ram.sh
}

# $1: the tables, $2: the document
put_tables() {
    awk '
        NR == FNR { if (!/^\|/) table = ""; else if (table == "") table = $0; else rows[table] = rows[table] "\n" $0; next }
        /^\|/ && inside { next }
        { inside = 0; print; if ($0 in rows) { print substr(rows[$0], 2); inside = 1 } }' "$1" "$2"
}

print_all > "$out/figures"
cat "$out/figures"
if [ "${1:-}" = write ]; then
    put_tables "$out/figures" docs/CONTROLLER.md > "$out/document"
    cp "$out/document" docs/CONTROLLER.md
fi
