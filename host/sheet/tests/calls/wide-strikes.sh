sheet judge host/sheet/tests/sheets/wide-strikes.txt
