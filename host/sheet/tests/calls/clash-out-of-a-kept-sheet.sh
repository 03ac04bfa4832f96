sheet clash examples/clock-mended.txt --out "$scratch/none.txt"; status=$?; [ ! -e "$scratch/none.txt" ] && exit "$status"
