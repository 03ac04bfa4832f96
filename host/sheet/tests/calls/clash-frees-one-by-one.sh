sheet clash host/sheet/tests/sheets/clash-frees-one-by-one.txt
