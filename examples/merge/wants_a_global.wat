;; Imports a.f as a global: as part a, exports_f.wat has a function there.
(module (import "a" "f" (global i32)))
