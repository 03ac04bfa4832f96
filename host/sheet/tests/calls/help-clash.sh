sheet clash --help
