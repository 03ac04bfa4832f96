sheet clash host/sheet/tests/sheets/clash-frees-at-once.txt --out "$scratch/none.txt"; status=$?; [ ! -e "$scratch/none.txt" ] && exit "$status"
