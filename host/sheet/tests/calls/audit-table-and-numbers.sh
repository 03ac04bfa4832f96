sheet audit --table --numbers examples/clock-year.txt no-such-log
