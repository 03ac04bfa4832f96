sheet clash host/sheet/tests/sheets/clash-bare.txt
