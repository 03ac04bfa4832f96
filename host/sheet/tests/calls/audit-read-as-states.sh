printf '3333' | sheet audit examples/clock-year.txt - --states
