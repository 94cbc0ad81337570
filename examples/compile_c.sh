#!/bin/sh
# Compiles NAME.c of this folder to OUT, which is NAME.wasm here where none is given, with clang and lld of Debian 12, in
# two steps: clang alone would run wasm-opt behind the linker, where that is installed. docs/use/FROM_C.md says what the
# flags are for.
#
#   compile_c.sh NAME [OUT [CLANG'S FLAG ..]]
name=$1
out=${2:-$(dirname "$0")/$name.wasm}
shift $(($# < 2 ? $# : 2))
clang --target=wasm32 -mcpu=mvp -msign-ext -Os -ffreestanding -Wall -Wextra -mllvm -replexitval=never "$@" \
  -c -o "$out.o" "$(dirname "$0")/$name.c" &&
  wasm-ld --no-entry --strip-all --stack-first -z stack-size=4096 -o "$out" "$out.o"
status=$?
rm -f "$out.o"
exit $status
