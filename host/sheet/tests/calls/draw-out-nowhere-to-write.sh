sheet draw examples/clock.txt --out no-such-folder/clock.svg
