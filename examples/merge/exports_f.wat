;; Exports a function f.
(module (func (export "f")))
