sheet judge --all host/sheet/tests/sheets/long-run.txt
