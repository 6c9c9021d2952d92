;; Imports the memory e.m that grows to 5 pages at most: it clashes with wants_six_pages.wat.
(module (import "e" "m" (memory 1 5)))
