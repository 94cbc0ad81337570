;; A memory, a table and a global, and a function that adds to the global and stores it at address 8. The table has its
;; function that gives three times its argument at place 1.
(module
  (memory (export "mem") 1 3)
  (table (export "tab") 4 funcref)
  (global $sum (mut i32) (i32.const 5))
  (elem (i32.const 1) $three_times)
  (data (i32.const 40) "\01\02")
  (func (export "put") (param i32)
    global.get $sum
    local.get 0
    i32.add
    global.set $sum
    i32.const 8
    global.get $sum
    i32.store)
  (func $three_times (param i32) (result i32)
    local.get 0
    i32.const 3
    i32.mul))
