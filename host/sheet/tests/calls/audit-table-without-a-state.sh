printf 'time,state\n02:58,3\n02:59\n' | sheet audit examples/clock-year.txt -
