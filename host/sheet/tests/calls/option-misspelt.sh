sheet judge --number examples/clock.txt
