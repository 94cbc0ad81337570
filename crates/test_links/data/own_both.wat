;; Has a table and a memory of its own.
(module
  (table 1 funcref)
  (memory 1)
  (func (export "f") (param i32) (result i32)
    local.get 0))
