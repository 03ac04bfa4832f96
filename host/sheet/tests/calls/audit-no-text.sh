printf '3\n7\xff\n' | sheet audit examples/clock-year.txt -
