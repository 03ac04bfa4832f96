printf '3\n7x\n' | sheet audit examples/clock-year.txt -
