;; Imports a.x and exports it as x: the other half of passes_b_on.wat.
(module (import "a" "x" (func (result i32))) (export "x" (func 0)))
