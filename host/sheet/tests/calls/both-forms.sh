sheet judge --bytes --text examples/clock.txt
