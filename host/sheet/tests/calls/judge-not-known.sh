# Frame rules hold letters down: which rules fight is not known, and that is told, with what is known.
sheet judge host/sheet/tests/sheets/frames.txt
sheet judge --json host/sheet/tests/sheets/frames.txt
