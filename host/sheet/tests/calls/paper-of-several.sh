sheet judge examples/clock.txt examples/clock-mended.txt --paper x
