sheet judge host/sheet/tests/sheets/no-room.txt examples/clock.txt examples/no-such-file.txt
