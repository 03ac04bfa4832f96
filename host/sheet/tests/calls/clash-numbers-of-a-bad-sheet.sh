sheet clash --numbers examples/bad-07.sheet
