#!/bin/sh
# Compiles numbers.c and calculator.rs to modules that can be joined, with clang, lld and rustc of Debian 12, into the
# folder that is named, or into this one. docs/use/JOIN.md says what the flags are for.
here=$(cd "$(dirname "$0")" && pwd)
out=${1:-$here}
clang --target=wasm32 -mcpu=mvp -msign-ext -Os -ffreestanding -Wall -Wextra -mllvm -replexitval=never \
  -c -o "$out/numbers.o" "$here/numbers.c" &&
  wasm-ld --no-entry --strip-all --global-base=32768 -z stack-size=4096 --export-table \
    -o "$out/numbers.wasm" "$out/numbers.o" || exit 1
rm -f "$out/numbers.o"
/usr/bin/rustc --edition 2021 --target wasm32-unknown-unknown --crate-type cdylib -C opt-level=s -C lto \
  -C llvm-args=-replexitval=never -C link-arg=--strip-all -C link-arg=--stack-first -C link-arg=-zstack-size=4096 \
  -C link-arg=--import-memory -C link-arg=--import-table \
  -o "$out/calculator.wasm" "$here/calculator.rs"
