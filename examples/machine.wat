(module
  ;; A machine of four states over the bits of a word, the lowest first: it counts how often 1, 0, 1 follow one another.
  (func (export "count") (param $word i32) (result i32)
    (local $state i32) (local $bits i32) (local $found i32)
    i32.const 32
    local.set $bits
    loop $next
      block $step
        block $three
          block $two
            block $one
              block $none
                local.get $state
                br_table $none $one $two $three
              end
              ;; nothing seen: a 1 leads on
              local.get $word
              i32.const 1
              i32.and
              local.set $state
              br $step
            end
            ;; 1 seen: a 0 leads on
            i32.const 2
            i32.const 1
            local.get $word
            i32.const 1
            i32.and
            i32.eqz
            select
            local.set $state
            br $step
          end
          ;; 1, 0 seen: a 1 is the end of one, a 0 is nothing
          i32.const 3
          i32.const 0
          local.get $word
          i32.const 1
          i32.and
          select
          local.set $state
          br $step
        end
        unreachable
      end
      local.get $state
      i32.const 3
      i32.eq
      if
        local.get $found
        i32.const 1
        i32.add
        local.set $found
        i32.const 1
        local.set $state
      end
      local.get $word
      i32.const 1
      i32.shr_u
      local.set $word
      local.get $bits
      i32.const 1
      i32.sub
      local.tee $bits
      br_if $next
    end
    local.get $found))
