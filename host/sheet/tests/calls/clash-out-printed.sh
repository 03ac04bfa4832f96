sheet clash host/sheet/tests/sheets/clash-two-pairs.txt --out -
