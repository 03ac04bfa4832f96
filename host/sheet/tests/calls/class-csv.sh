mkdir "$scratch/csv" && cp examples/clock.txt examples/bad-08.sheet examples/w03.txt host/sheet/tests/sheets/no-room.txt "$scratch/csv"
printf 'letters a\nstep "b", leads to a\n' >"$scratch/csv/a, \"b\".txt"
cd "$scratch/csv" && sheet class --csv . missing.txt
