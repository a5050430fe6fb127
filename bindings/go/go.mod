module not-published.invalid/s2union/bindings/go

go 1.18
