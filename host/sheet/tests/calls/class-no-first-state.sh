printf 'letters a, b\nlimit exactly 1 of a, b\nfirst a\nfirst b\n' >"$scratch/none.txt"
cd "$scratch" && sheet class none.txt
