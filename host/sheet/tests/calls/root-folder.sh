cd / && sheet judge --numbers "$OLDPWD/examples/clock.txt"
