sheet write examples/clock.txt >&-
