#!/bin/sh
# Proves a library as `rt lib` does and keeps the one LLVM module of which its archive is made: sh controller/module/capture.sh CRATE
#   target/staticlib/libCRATE.a        the archive for x86-64, as always
#   target/controller/module/CRATE.bc  the module
# `rt` is run with a kit whose every file is a link to the real one but for its clang, and for `rt` itself, which finds the kit by its own place: that clang is
# a script which keeps its input and then becomes the real one. Nothing of what `rt` proves or of what it is told changes.
set -eu
cd "$(dirname "$0")/../.."
. controller/tools.sh
crate=$1
kept=$PWD/$out/module
linked=$PWD/$out/kit
rm -rf "$linked" "$kept/$crate.bc" "$kept/$crate.words"
mkdir -p "$kept" "$linked/bin" "$linked/toolchain/bin" target/staticlib

# A library is one module: a second one would be lost.
cat > "$linked/toolchain/bin/clang" << END
#!/bin/sh
for word in "\$@"; do
    case \$word in
    *.bc | *.ll)
        [ ! -e '$kept/$crate.bc' ] || { echo "capture: a second module, \$word" >&2; exit 1; }
        cp "\$word" '$kept/$crate.bc'
        for each in "\$@"; do echo "\$each"; done > '$kept/$crate.words'
        ;;
    esac
done
exec '$kit/toolchain/bin/clang' "\$@"
END
chmod +x "$linked/toolchain/bin/clang"
cp "$kit/bin/rt" "$kit/bin/rtlib.py" "$linked/bin/"

# Links to all else that the kit has there.
for folder in bin toolchain/bin toolchain .; do
    for file in "$kit/$folder"/*; do
        [ -e "$linked/$folder/$(basename "$file")" ] || ln -s "$file" "$linked/$folder/"
    done
done

# What an earlier run made is made again, so that the compiler is called.
rm -f "crates/$crate/out/lib$crate.a"
(cd "crates/$crate" && "$linked/bin/rt" lib)
cp "crates/$crate/out/lib$crate.a" target/staticlib/
rm -rf "$linked"
[ -s "$kept/$crate.bc" ] || { echo "capture: the backend handed no module to clang" >&2; exit 1; }

# The kept module and the words of the call make the archive's object again, byte for byte.
again=$(mktemp -d)
trap 'rm -rf "$again"' EXIT
cp "$kept/$crate.bc" "$again/module.bc"
archive=$PWD/target/staticlib/lib$crate.a
clang=$PWD/$(kit_tool clang)
ar=$PWD/$(kit_tool llvm-ar)
(cd "$again" && xargs -d '\n' "$clang" < "$kept/$crate.words" && "$ar" x "$archive" && cmp module.o "$crate.o")
