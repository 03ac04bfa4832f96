sheet judge examples/clock.txt examples/no-such-file.txt examples/clock-mended.sheet
