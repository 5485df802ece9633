module lulqoter/examples/go

go 1.19
