printf 'letters a\nfirst\0 a\n' >"$scratch/zero.txt"
cd "$scratch" && sheet class zero.txt
