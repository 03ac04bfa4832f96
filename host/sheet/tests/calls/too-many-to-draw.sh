sheet draw host/sheet/tests/sheets/six-letters.txt
