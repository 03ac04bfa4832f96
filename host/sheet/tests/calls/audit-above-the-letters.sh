printf '3\n19\n' | sheet audit examples/clock-year.txt -
