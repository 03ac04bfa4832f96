printf '3\n7\n13\n3\n' | sheet audit examples/clock-year.txt -
