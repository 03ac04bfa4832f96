printf '3\n7\n1\0\n7\n' | sheet audit examples/clock-year.txt -
