#!/bin/sh
# Compiles products.c to products.wasm, or to the file that is named, and has its products of 64 bits done by functions that
# are added. docs/use/FROM_C.md says what is needed.
here=$(dirname "$0")
out=${1:-$here/products.wasm}
"$here/compile_c.sh" products "$out" && "$here/../tools/mul64.py" "$out" "$out"
