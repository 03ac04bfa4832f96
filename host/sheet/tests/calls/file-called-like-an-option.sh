cp examples/w01.txt "$scratch/--all"; cd "$scratch" && sheet judge -- --all
