sheet read --paper x examples/clock.txt
