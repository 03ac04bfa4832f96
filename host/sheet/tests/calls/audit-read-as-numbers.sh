printf '\0\0\0\3' | sheet audit examples/clock-year.txt - --numbers
