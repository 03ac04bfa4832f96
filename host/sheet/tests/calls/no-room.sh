sheet judge host/sheet/tests/sheets/no-room.txt
