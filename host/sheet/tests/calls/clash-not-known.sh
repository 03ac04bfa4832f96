# Frame rules hold letters down: with one of them left out there is no room, and what is known is told all the same.
sheet clash host/sheet/tests/sheets/frames.txt
