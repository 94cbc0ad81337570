;; A library with a start function.
(module
  (func)
  (start 0))
