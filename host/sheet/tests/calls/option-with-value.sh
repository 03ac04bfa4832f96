sheet judge --all=yes examples/clock.txt
