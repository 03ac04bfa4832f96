head -c 100000 /dev/zero | tr '\0' 1 | sheet audit examples/clock-year.txt -
