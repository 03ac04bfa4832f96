cp examples/clock.txt "$scratch/clock.txt" && cd "$scratch" && sheet draw clock.txt --out clock.txt
