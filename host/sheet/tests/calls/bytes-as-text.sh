sheet judge --text examples/clock.sheet
