printf 'time,state\n"a \\ \t b",3\n' | sheet audit --json examples/clock-year.txt -
