sheet audit examples/clock-year.txt examples/clock.sheet --states --numbers
