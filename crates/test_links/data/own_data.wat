;; Writes a byte over one that the library wrote, and loads both: its data is written behind the library's.
(module
  (import "m" "mem" (memory 1))
  (data (i32.const 40) "\07")
  (func (export "f") (param i32) (result i32)
    local.get 0
    i32.load16_u))
