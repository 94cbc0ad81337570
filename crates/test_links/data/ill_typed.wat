;; A closed module of which a function leaves a value of another type than its own says.
(module
  (func (export "f") (param i32) (result i32)
    i64.const 1))
