;; Two exports of one name.
(module
  (func (export "f") (export "f") (param i32) (result i32)
    local.get 0))
