printf '\0\0\0\3\0\0' | sheet audit examples/clock-year.txt -
