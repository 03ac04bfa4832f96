sheet judge --numbers host/sheet/tests/sheets/no-room.txt
