printf 'motor, file\nmotor, fill\n' | sheet audit examples/clock-year.txt -
