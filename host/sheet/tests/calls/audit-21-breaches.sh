for i in 1 2 3 4 5 6 7 8 9 10 11 12 13 14 15 16 17 18 19 20 21; do echo 13; done | sheet audit examples/clock-year.txt - | sed -n '1p;60,64p'
