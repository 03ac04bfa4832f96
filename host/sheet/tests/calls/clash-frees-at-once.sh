sheet clash host/sheet/tests/sheets/clash-frees-at-once.txt
