# A file's name can hold anything, and letters' names every alphabet.
cd "$scratch" || exit
name=$(printf 'a "b" \\\\ \t\nc\033é.txt')
printf 'letters Größe, äöü\nfirst Größe\nstep always leads to not Größe\npromise Größe # "again"\n' >"$name"
sheet judge --json "$name"
sheet clash --json "$name"
