;; main adds 1, and calls rare where its parameter is 0.
(module
  (func $main (export "main") (param i32) (result i32)
    (if (result i32) (i32.eqz (local.get 0))
      (then (call $rare))
      (else (i32.add (local.get 0) (i32.const 1)))))
  (func $rare (result i32) (i32.const 42)))
