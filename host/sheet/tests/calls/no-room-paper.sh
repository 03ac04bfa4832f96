sheet judge --paper - host/sheet/tests/sheets/no-room.txt
