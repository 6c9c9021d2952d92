;; Calls counter.next two times and gives the second number; tells it to host.log.
(module
  (import "counter" "next" (func $next (result i32)))
  (import "host" "log" (func $log (param i32)))
  (func (export "twice") (result i32) (local i32)
    (drop (call $next))
    (call $next)
    (local.tee 0)
    (call $log)
    (local.get 0)))
