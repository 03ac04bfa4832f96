sheet -- examples/clock.txt
