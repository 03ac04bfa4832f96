sheet clash host/sheet/tests/sheets/no-room.txt
