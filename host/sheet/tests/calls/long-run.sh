sheet judge host/sheet/tests/sheets/long-run.txt
