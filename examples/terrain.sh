#!/bin/sh
# Compiles terrain.c to terrain.wasm, or to the file that is named. docs/use/FROM_C.md says what is needed.
exec "$(dirname "$0")/compile_c.sh" terrain "$@"
