printf '' | sheet audit examples/clock-year.txt -
