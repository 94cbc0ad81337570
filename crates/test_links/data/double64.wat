;; A function of the same name as that of `double`, and of another type.
(module
  (func (export "twice") (param i64) (result i64)
    local.get 0
    local.get 0
    i64.add))
