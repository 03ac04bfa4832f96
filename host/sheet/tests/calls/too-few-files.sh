sheet check examples/clock.txt
