;; Grows the library's memory, whose greatest size it doesn't tell.
(module
  (import "m" "mem" (memory 1))
  (func (export "f") (param i32) (result i32)
    local.get 0
    memory.grow))
