sheet draw --dot examples/clock-mended.txt
