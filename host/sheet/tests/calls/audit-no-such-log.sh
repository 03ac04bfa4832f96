sheet audit examples/clock-year.txt examples/no-such.log
