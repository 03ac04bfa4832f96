# How long the rules that fight are looked for: not at all, and so many seconds as are no number.
sheet judge --seconds 0 examples/clock.txt
sheet judge --seconds soon examples/clock.txt
sheet judge --seconds 100000 examples/clock.txt
