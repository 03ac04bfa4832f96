sheet clash host/sheet/tests/sheets/clash-bare.txt --out "$scratch/bare.sheet" >/dev/null; sheet read "$scratch/bare.sheet"; sheet judge --numbers "$scratch/bare.sheet"
