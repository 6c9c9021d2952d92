;; Imports the memory e.m of 6 pages or more.
(module (import "e" "m" (memory 6)))
