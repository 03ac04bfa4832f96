mkdir -p "$scratch/outer/inner" && printf 'letters a\n' >"$scratch/outer/inner/sheet.txt"
cd "$scratch" && sheet class outer
