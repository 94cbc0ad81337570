;; A library that exports what it imports, and nothing of its own.
(module
  (import "m" "put" (func (param i32)))
  (import "m" "mem" (memory 1 3))
  (import "m" "tab" (table 2 funcref))
  (func)
  (export "put" (func 0))
  (export "mem" (memory 0))
  (export "tab" (table 0)))
