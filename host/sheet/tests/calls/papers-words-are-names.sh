printf 'letters run, back, word, round, strikes\nfirst run\n' >"$scratch/words.txt"
printf 'run\nrun, back, word\nback, round\nback\nround\nword, strikes\nback to 4\n' >"$scratch/words.paper"
cd "$scratch" && sheet check words.txt words.paper && sheet judge words.txt --paper - | sheet check words.txt -
