cp examples/w01.txt "$scratch/w01.txt"; cd "$scratch" && sheet judge w01.txt --paper ./w01.txt; cat w01.txt
