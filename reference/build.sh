#!/bin/sh
# Builds the library, the desk program and the counting program into build/
# (or the folder named). With "test" as second word builds and runs the tests.
set -e
here=$(cd "$(dirname "$0")" && pwd)
out=${1:-$here/build}
mkdir -p "$out"
rustc -O --edition 2021 --crate-type rlib --crate-name reference \
    "$here/src/lib.rs" -o "$out/libreference.rlib"
for program in desk reach; do
    rustc -O --edition 2021 --extern reference="$out/libreference.rlib" \
        "$here/src/$program.rs" -o "$out/$program"
done
if [ "$2" = test ]; then
    rustc -O -C debug-assertions --edition 2021 --test --crate-name reference \
        "$here/src/lib.rs" -o "$out/tests"
    "$out/tests" --quiet
fi
