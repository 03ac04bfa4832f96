sheet check examples/clock.txt examples/no-such.paper
