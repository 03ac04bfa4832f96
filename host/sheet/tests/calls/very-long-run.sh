sheet judge host/sheet/tests/sheets/very-long-run.txt
