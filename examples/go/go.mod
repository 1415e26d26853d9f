module example.invalid/hash-file

go 1.19
