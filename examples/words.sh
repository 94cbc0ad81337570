#!/bin/sh
# Compiles words.c to words.wasm, or to the file that is named. docs/use/FROM_C.md says what is needed.
exec "$(dirname "$0")/compile_c.sh" words "${1:-$(dirname "$0")/words.wasm}" -mllvm -combiner-store-merging=0
