sheet clash examples/clock.txt --out "$scratch/fight.sheet" >/dev/null; cmp examples/clock.sheet "$scratch/fight.sheet" && sheet judge --numbers "$scratch/fight.sheet"
