printf 'letters a, b, c, d, e\nlimit at most 3 of a, b, c, d, e\nfirst not e\nstep not e leads to a\nstep always leads to b\nstep always leads to c\nstep always leads to d\n' >"$scratch/many.txt"
cd "$scratch" && sheet class many.txt
