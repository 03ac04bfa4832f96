for i in 1 2 3 4 5 6 7 8 9 10 11 12; do printf '3\n13\n'; done | sheet audit --all examples/clock-year.txt - | tail -n 30
