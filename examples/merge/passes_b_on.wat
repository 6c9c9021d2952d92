;; Imports b.x and exports it as x: beside passes_a_on.wat, as part b, no part defines x.
(module (import "b" "x" (func (result i32))) (export "x" (func 0)))
