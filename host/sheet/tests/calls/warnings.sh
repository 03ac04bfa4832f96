# What looks odd: one line each, on the side of the messages. No verdict, no number and no exit status is another for it.
odd=host/sheet/tests/sheets/odd.txt
sheet judge "$odd"
echo "status $?"
sheet judge --all "$odd"
sheet judge --numbers "$odd"
sheet judge --json "$odd"
sheet write "$odd" | sheet judge -
sheet judge host/sheet/tests/sheets/odd-and-struck.txt
