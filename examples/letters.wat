(module
  ;; four texts, each with its length in two bytes before it, at odd addresses too
  (memory (export "memory") 2)
  (data (i32.const 1) "\0c\00hello, world\0d\00never odd, or\05\00kayak\00\00")
  ;; where each of them begins: two bytes each, over the end of the first page
  (data (i32.const 65533) "\01\00\0f\00\1e\00\25\00")

  (func $begin (param $text i32) (result i32)
    local.get $text
    i32.const 1
    i32.shl
    i32.load16_u offset=65533)

  (func $length (export "length") (param $text i32) (result i32)
    local.get $text
    call $begin
    i32.load16_u)

  ;; turns a text round
  (func (export "reverse") (param $text i32)
    (local $first i32) (local $last i32) (local $letter i32)
    local.get $text
    call $begin
    i32.const 2
    i32.add
    local.tee $first
    local.get $text
    call $length
    i32.add
    i32.const 1
    i32.sub
    local.set $last
    block $done
      loop $next
        local.get $first
        local.get $last
        i32.ge_s
        br_if $done
        local.get $first
        i32.load8_u
        local.set $letter
        local.get $first
        local.get $last
        i32.load8_u
        i32.store8
        local.get $last
        local.get $letter
        i32.store8
        local.get $first
        i32.const 1
        i32.add
        local.set $first
        local.get $last
        i32.const 1
        i32.sub
        local.set $last
        br $next
      end
    end)

  ;; adds a number to each letter of a text that is a small one, from z round to a
  (func (export "shift") (param $text i32) (param $by i32)
    (local $at i32) (local $end i32) (local $letter i32)
    local.get $text
    call $begin
    local.tee $at
    local.get $text
    call $length
    i32.add
    local.set $end
    block $done
      loop $next
        local.get $at
        local.get $end
        i32.ge_u
        br_if $done
        local.get $at
        i32.load8_s offset=2
        i32.const 97
        i32.sub
        local.tee $letter
        i32.const 26
        i32.lt_u
        if
          local.get $at
          local.get $letter
          local.get $by
          i32.add
          i32.const 26
          i32.rem_u
          i32.const 97
          i32.add
          i32.store8 offset=2
        end
        local.get $at
        i32.const 1
        i32.add
        local.set $at
        br $next
      end
    end)

  ;; the first four letters of a text as a number
  (func (export "word") (param $text i32) (result i32)
    local.get $text
    call $begin
    i32.load offset=2)

  ;; how many pages there are
  (func (export "pages") (result i32)
    memory.size))
