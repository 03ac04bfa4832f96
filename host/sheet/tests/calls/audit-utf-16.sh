printf '\xff\xfe3\0\n\0' | sheet audit examples/clock-year.txt -
