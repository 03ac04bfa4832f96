sheet jugde examples/clock.txt
