cp examples/clock.txt "$scratch/clock.txt"; cd "$scratch" && sheet clash clock.txt --out ./clock.txt; cat clock.txt
