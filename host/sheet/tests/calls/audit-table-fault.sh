printf 'time,state\n02:58,3\n02:59,mottor\n' | sheet audit examples/clock-year.txt -
