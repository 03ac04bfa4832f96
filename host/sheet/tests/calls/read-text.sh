sheet read examples/clock.txt
