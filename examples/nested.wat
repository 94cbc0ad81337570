(module
  ;; The first pair of i and j, each from 1 to n, whose product is p, as 1000 * i + j; -1 where there is none.
  (func (export "pair") (param $n i32) (param $p i32) (result i32)
    (local $i i32) (local $j i32)
    block $found (result i32)
      loop $rows
        local.get $i
        i32.const 1
        i32.add
        local.tee $i
        local.get $n
        i32.gt_u
        if
          i32.const -1
          br $found
        end
        i32.const 0
        local.set $j
        loop $columns
          local.get $j
          i32.const 1
          i32.add
          local.tee $j
          local.get $n
          i32.gt_u
          br_if $rows
          local.get $i
          local.get $j
          i32.mul
          local.get $p
          i32.eq
          if
            local.get $i
            i32.const 1000
            i32.mul
            local.get $j
            i32.add
            br $found
          end
          br $columns
        end
        unreachable
      end
      unreachable
    end))
