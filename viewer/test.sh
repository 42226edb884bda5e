#!/bin/sh
# Tests the page: sh viewer/test.sh [FOLDER]
# node runs the module on the gate's cases, and chromium opens viewer/formula.html from the disk: what stands on the page is compared, row by row, with
# what the native programs print for the same files, and the values with those of the native library (target/staticlib, which viewer/build.sh makes too).
# Native programs that are missing are proved and built first, and said. What a missing tool leaves out is said. PICTURES=FOLDER also writes the pictures
# of docs/VIEWER.md there.
set -eu
cd "$(dirname "$0")/.."
from=${1:-target/controller/web}
have() {
    for tool in $1; do
        command -v "$tool" > /dev/null || { echo "$tool is missing: $2 left out"; return 1; }
    done
}
have node "the tests of the page are" || exit 0
sh viewer/build.sh "$@"
rm -f target/viewer/evaluate
if have cc "comparing values with the native library's is"; then
    if [ -s target/staticlib/libformula_c.a ]; then
        cc -std=c99 -Wall -Wextra -Werror -O2 -I include -o target/viewer/evaluate viewer/evaluate.c -L target/staticlib -lformula_c -lm
    else
        echo "target/staticlib/libformula_c.a is missing: comparing values with the native library's is left out"
    fi
fi
node controller/web/test.mjs "$PWD/$from" crates/vector_cases/stdin crates/vector_cases/stdout
node viewer/module.test.mjs "$PWD/$from"
have "chromium chromedriver rt" "the tests in a browser are" || exit 0
missing=
for program in cards salvage cells format listing formula replay; do
    [ -x "target/bin/$program" ] || missing="$missing $program"
done
if [ -n "$missing" ]; then
    echo "missing in target/bin:$missing; proved and built first, which takes minutes"
    # shellcheck disable=SC2086
    sh tools/build.sh $missing
fi
node viewer/page.test.mjs "$PWD/$from" "${PICTURES:-}"
