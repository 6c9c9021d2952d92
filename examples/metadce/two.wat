;; Exports two functions. One calls the import env.log; the other calls nothing.
(module
  (import "env" "log" (func $log (param i32)))
  (func (export "tell") (call $log (i32.const 1)))
  (func (export "sum") (param i32 i32) (result i32) (i32.add (local.get 0) (local.get 1))))
