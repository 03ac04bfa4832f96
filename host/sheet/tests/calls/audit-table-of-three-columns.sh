printf 'time,state,note\n02:58,3,x\n' | sheet audit --table examples/clock-year.txt -
