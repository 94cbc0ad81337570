(module
  ;; a memory that grows, is filled and is copied
  (memory (export "memory") 1 8)
  (data (i32.const 16) "abcdefgh")

  ;; the old number of pages, or -1
  (func (export "grow") (param $more i32) (result i32)
    local.get $more
    memory.grow)

  (func (export "count") (result i32)
    memory.size)

  (func (export "fill") (param $to i32) (param $byte i32) (param $bytes i32)
    local.get $to
    local.get $byte
    local.get $bytes
    memory.fill)

  (func (export "copy") (param $to i32) (param $from i32) (param $bytes i32)
    local.get $to
    local.get $from
    local.get $bytes
    memory.copy)

  ;; the sum of bytes
  (func (export "sum") (param $from i32) (param $bytes i32) (result i32)
    (local $sum i32)
    block $done
      loop $next
        local.get $bytes
        i32.eqz
        br_if $done
        local.get $from
        i32.load8_u
        local.get $sum
        i32.add
        local.set $sum
        local.get $from
        i32.const 1
        i32.add
        local.set $from
        local.get $bytes
        i32.const 1
        i32.sub
        local.set $bytes
        br $next
      end
    end
    local.get $sum))
