# As JSON: a run, a strike list in brief and in full, no first state, no room, bytes, a bad sheet, a text with a fault, a file that is not there.
sheet judge --json examples/clock-mended.txt examples/clock.txt examples/w06.txt
sheet judge --json --all examples/clock.sheet --names motor,file,summer,repeated
sheet judge --json host/sheet/tests/sheets/no-room.txt
sheet judge --json examples/bad-08.sheet host/sheet/tests/faults/not-not.txt examples/no-such-file.txt 2>/dev/null
sheet judge --json --seconds 0 host/sheet/tests/sheets/clash-two-pairs.txt
sheet judge --json --numbers examples/clock.txt
