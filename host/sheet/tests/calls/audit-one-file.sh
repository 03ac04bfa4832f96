sheet audit examples/clock-year.txt
