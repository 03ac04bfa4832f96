printf 'letters back, word, round\nfirst round\nstep always leads to nothing\nlimit exactly 0 of back\n' >"$scratch/words.txt"
printf 'strikes\nround 1, no way on\nround\nword 32\nword, round\n' >"$scratch/words.paper"
cd "$scratch" && sheet check words.txt words.paper
