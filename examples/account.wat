(module
  ;; what is there, how often it has changed, and how much may be there at most
  (global $sum (mut i32) (i32.const 100))
  (global $changes (mut i32) (i32.const 0))
  (global $most i32 (i32.const 1000))

  (func $change (param $by i32)
    global.get $sum
    local.get $by
    i32.add
    global.set $sum
    global.get $changes
    i32.const 1
    i32.add
    global.set $changes)

  ;; puts something in or takes it out; a trap where less than nothing or more than the most would be there
  (func (export "add") (param $by i32) (result i32)
    local.get $by
    call $change
    global.get $sum
    i32.const 0
    i32.lt_s
    global.get $sum
    global.get $most
    i32.gt_s
    i32.or
    if
      unreachable
    end
    global.get $sum)

  ;; adds the numbers from 1 to n, one after the other
  (func (export "grow") (param $n i32) (result i32)
    loop $next
      local.get $n
      if
        local.get $n
        call $change
        local.get $n
        i32.const 1
        i32.sub
        local.set $n
        br $next
      end
    end
    global.get $sum)

  (func (export "changes") (result i32)
    global.get $changes))
