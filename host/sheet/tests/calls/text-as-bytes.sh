sheet judge --bytes examples/clock.txt
