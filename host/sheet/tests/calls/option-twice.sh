sheet judge --all --all examples/clock.txt
