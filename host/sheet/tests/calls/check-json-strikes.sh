sheet judge examples/clock.txt --paper "$scratch/s.paper" >"$scratch/ignored"
cp examples/clock.txt "$scratch/sheet.txt"
cd "$scratch" && sheet check --json sheet.txt s.paper
