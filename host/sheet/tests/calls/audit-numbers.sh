printf '3\n7\n\n  5 \r\n9' | sheet audit examples/clock-year.txt -
