sheet judge examples/clock.txt >/dev/full
