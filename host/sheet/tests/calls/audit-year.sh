sheet audit examples/clock-year.txt "$scratch/year.log"
