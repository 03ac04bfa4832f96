sheet judge --numbers examples/clock.txt
