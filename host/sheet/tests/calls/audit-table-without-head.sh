printf '02:58,3\n' | sheet audit --table examples/clock-year.txt -
