# However many states there are, the verdict fits a screen, and clash names every rule that fights.
sheet judge host/sheet/tests/sheets/many-states.txt
sheet clash host/sheet/tests/sheets/many-states.txt
