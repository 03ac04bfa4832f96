sheet judge examples/clock.txt --paper -
