#!/bin/sh
# Compiles inventory_bare.rs to inventory_bare.wasm, with rustc and lld of Debian 12. docs/use/FROM_RUST.md says what
# the flags are for.
cd "$(dirname "$0")" || exit 1
/usr/bin/rustc --edition 2021 --target wasm32-unknown-unknown --crate-type cdylib -C opt-level=2 -C lto \
  -C llvm-args=-replexitval=never -C link-arg=--strip-all -C link-arg=--stack-first -C link-arg=-zstack-size=4096 \
  -o "${1:-inventory_bare.wasm}" inventory_bare.rs
