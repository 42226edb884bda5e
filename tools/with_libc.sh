#!/bin/sh
# Runs a command, with the kit's C library in the place of the machine's where the machine's is older: sh tools/with_libc.sh COMMAND..
# A program is linked with the kit's library, and `rt ci` runs it with the machine's, which may lack what it wants: fmodf of glibc 2.38, which `%` of two
# singles calls. Three files are laid over the machine's by mounts that only the command sees and that end with it. That takes root; without it
# the command runs as it would without this script.
set -eu
from=$(dirname "$(rt doc </dev/null)")/toolchain/lib
loader=ld-linux-x86-64.so.2
own=$(getconf GNU_LIBC_VERSION | sed 's/.* //')
kit=$("$from/$loader" --version | sed -n '1s/.* version \([0-9.]*[0-9]\).*/\1/p')
oldest=$(printf '%s\n' "$own" "$kit" | sort -V | head -n 1)
[ "$oldest" != "$kit" ] || exec "$@"
if ! unshare --mount true 2>/dev/null; then
    echo "glibc $own is older than the kit's $kit, and only root can lay the kit's over it: a program that wants more will not run" >&2
    exec "$@"
fi
echo "programs run with the kit's glibc $kit, since the machine's is $own"
to=$(dirname "$(readlink -f "/lib64/$loader")")
mounts=$(mktemp)
for name in "$loader" libc.so.6 libm.so.6; do
    echo "$from/$name $to/$name none bind"
done > "$mounts"
# One process mounts all three, for with some of them nothing starts.
exec unshare --mount sh -c 'mount --all --fstab "$0" && rm "$0" && exec "$@"' "$mounts" "$@"
