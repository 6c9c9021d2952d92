;; Defines a memory: two parts that do so have more than one together.
(module (memory 1))
