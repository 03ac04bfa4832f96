printf '7\n13\n3\n0\n99\n3\n' | sheet audit examples/clock-year.txt -
