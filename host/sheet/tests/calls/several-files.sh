sheet judge examples/clock-mended.txt examples/clock.txt
