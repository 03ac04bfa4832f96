# Many warnings are counted, all are shown where that is asked for.
sheet judge --seconds 0 host/sheet/tests/sheets/slow-fight.txt 2>&1 >/dev/null
sheet judge --seconds 0 --all host/sheet/tests/sheets/slow-fight.txt 2>&1 >/dev/null | grep -c ': warning: '
