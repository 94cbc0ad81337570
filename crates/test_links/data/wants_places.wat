;; Wants a table of five places at least.
(module
  (import "m" "put" (func (param i32)))
  (import "m" "tab" (table 5 funcref))
  (func (export "f") (param i32) (result i32)
    local.get 0))
