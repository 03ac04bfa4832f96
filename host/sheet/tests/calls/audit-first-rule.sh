printf '7\n7\n' | sheet audit examples/clock-year.txt -
