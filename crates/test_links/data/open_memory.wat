;; A memory without a greatest size.
(module
  (memory (export "mem") 1))
