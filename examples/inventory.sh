#!/bin/sh
# Compiles inventory.rs to inventory.wasm, with rustc and lld of Debian 12, and has its products of 64 bits done by functions
# that are added. docs/use/FROM_RUST.md says what the flags are for.
cd "$(dirname "$0")" || exit 1
out=${1:-inventory.wasm}
/usr/bin/rustc --edition 2021 --target wasm32-unknown-unknown --crate-type cdylib -C opt-level=2 -C lto -C panic=abort \
  -C llvm-args=-replexitval=never -C link-arg=--strip-all -C link-arg=--stack-first -C link-arg=-zstack-size=8192 \
  -o "$out" inventory.rs && ../tools/mul64.py "$out" "$out"
