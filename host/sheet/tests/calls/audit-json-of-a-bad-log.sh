echo x | sheet audit --json examples/clock-year.txt -
