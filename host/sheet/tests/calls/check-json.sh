printf 'run\n7\n9\n1\nback to 2\n' >"$scratch/r.paper"
sheet judge examples/clock-mended.txt --paper "$scratch/good.paper" >"$scratch/ignored"
cp examples/clock-mended.txt "$scratch/sheet.txt"
cd "$scratch" && sheet check --json sheet.txt good.paper && sheet check --json sheet.txt r.paper
