for text in clock w04 w06 w01; do sheet clash --numbers "examples/$text.txt"; done
sheet clash --numbers host/sheet/tests/sheets/no-room.txt
