sheet clash examples/clock.txt examples/w04.txt
