# As JSON: rules that fight with their runs, none to blame, a sheet that can be kept, no room in a trial, no room at all, a bad sheet.
sheet clash --json --runs examples/clock.txt
sheet clash --json host/sheet/tests/sheets/clash-bare.txt
sheet clash --json examples/clock-mended.txt
sheet clash --json host/sheet/tests/sheets/clash-frees-at-once.txt
sheet clash --json host/sheet/tests/sheets/no-room.txt
sheet clash --json examples/bad-08.sheet 2>/dev/null
sheet clash --json --numbers examples/clock.txt
