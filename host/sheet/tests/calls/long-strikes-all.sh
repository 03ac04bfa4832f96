sheet judge --all host/sheet/tests/sheets/long-strikes.txt
