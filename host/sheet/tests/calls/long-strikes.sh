sheet judge host/sheet/tests/sheets/long-strikes.txt
