;; A function that traps.
(module
  (func (export "twice") (param i32) (result i32)
    unreachable))
