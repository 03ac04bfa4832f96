sheet draw examples/clock.txt --out "$scratch/clock.svg" && cmp docs/clock.svg "$scratch/clock.svg"
