printf '3\n' | sheet audit --bytes examples/clock-year.txt -
