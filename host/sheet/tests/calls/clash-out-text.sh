sheet clash host/sheet/tests/sheets/clash-two-pairs.txt --out "$scratch/pair.txt" >/dev/null; cat "$scratch/pair.txt"; sheet judge --numbers "$scratch/pair.txt"
