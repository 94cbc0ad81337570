;; Has a table of its own in place of an import.
(module
  (import "m" "put" (func $put (param i32)))
  (table 1 funcref)
  (func (export "f") (param i32) (result i32)
    local.get 0))
