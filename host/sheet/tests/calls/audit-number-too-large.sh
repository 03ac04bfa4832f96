printf '3\n4294967296\n' | sheet audit examples/clock-year.txt -
