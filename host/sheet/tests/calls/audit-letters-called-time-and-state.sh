printf 'letters time, state\nfirst not state\n' >"$scratch/time.txt"
printf 'time,state\n' | sheet audit "$scratch/time.txt" - | head -n 1 && printf 'time,state\n02:00,time\n' | sheet audit --table "$scratch/time.txt" - | head -n 1
