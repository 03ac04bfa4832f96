# How far it is, is told or not as the machine is slow or fast.
head -c 4000000 /dev/zero | sheet audit examples/clock-year.txt - 2>/dev/null
