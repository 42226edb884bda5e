#!/bin/sh
# The deepest stack of every operation of each library, on this machine and on each target, as tables: sh controller/count/stack.sh [TARGET...]
# By bench/stack.c on the texts of bench/, for the archives that run.sh made. target/controller/stack has what each program printed, with the text that
# went deepest.
set -eu
cd "$(dirname "$0")/../.."
. controller/tools.sh
only=" ${*:-$(target_names | tr '\n' ' ')} "
work=$out/stack
inputs=$out/inputs
mkdir -p "$work"
have cc "depths of stacks are" || exit 0
[ -s "$inputs" ] || { echo "$inputs is missing: depths of stacks are left out"; exit 0; }

# $1: library, $2: numbers; -z now: symbols are resolved at the start, so that no call pays for that
measure_here() {
    cc -std=gnu11 -Wall -Wextra -O2 -D"$2" -I include -Wl,-z,now -o "$work/stack" bench/stack.c -L target/staticlib -l"$1" -lm
    "$work/stack" < "$inputs" > "$work/$1.x86-64"
}

# $1: library, $2: numbers, $3: target
measure_on() {
    have "$(target_tool "$3" cross) $(target_tool "$3" board)" "the stack of $1 on $3 is" || return 0
    [ -s "$out/$3/lib$1.a" ] || { echo "$out/$3/lib$1.a is missing: its stack is left out"; return 0; }
    CFLAGS="-D$2 -include controller/count/inputs.h -DINPUTS=\"$inputs\"" sh controller/board/build.sh "$3" "$work/stack.elf" "$out/$3/lib$1.a" bench/stack.c
    sh controller/board/emulate.sh "$3" "$work/stack.elf" > "$work/$1.$3"
}

# $1: library, the rest: machines; one column for each that was measured
print_table() {
    library=$1
    shift
    files=
    for machine in "$@"; do
        [ ! -s "$work/$library.$machine" ] || files="$files $work/$library.$machine"
    done
    # shellcheck disable=SC2086
    awk "$shown"'
        FNR == 1 { n = split(FILENAME, part, "."); head = head " " part[n] " |"; rule = rule "---|"; files++ }
        { name = $0; sub(/ +[0-9]+ bytes.*/, "", name); match($0, /[0-9]+ bytes/); bytes = substr($0, RSTART, RLENGTH - 6) }
        files == 1 { row[FNR] = "| " name " |" }
        { row[FNR] = row[FNR] " " shown(bytes) " |"; last = FNR }
        END { print "| Deepest stack, bytes |" head "\n|---|" rule; for (i = 1; i <= last; i++) print row[i]; print "" }' $files
}

# The board's programs read none of the list.
for library in $(list_archives | cut -d ' ' -f 1 | uniq); do
    rm -f "$work/$library".*
    machines=x86-64
    list_archives > "$work/archives"
    while read -r name target numbers _; do
        [ "$name" = "$library" ] || continue
        definition=$(echo "$numbers" | tr '[:lower:]' '[:upper:]')
        [ "$machines" != x86-64 ] || measure_here "$library" "$definition"
        machines="$machines $target"
        case $only in *" $target "*) [ "$target" = wasm32 ] || measure_on "$library" "$definition" "$target" < /dev/null ;; esac
    done < "$work/archives"
    # shellcheck disable=SC2086
    print_table "$library" $machines
done
