sheet judge --all host/sheet/tests/sheets/wide-strikes.txt
