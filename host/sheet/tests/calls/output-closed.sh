sheet judge examples/clock.txt >&-
