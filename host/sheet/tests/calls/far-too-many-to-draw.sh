sheet draw host/sheet/tests/sheets/no-room.txt
