mkdir "$scratch/json" && cp examples/clock.txt examples/bad-08.sheet examples/w03.txt host/sheet/tests/sheets/no-room.txt "$scratch/json"
printf 'letters a\nstep "b" leads to a\n' >"$scratch/json/faulty.txt"
cd "$scratch/json" && sheet class --json . missing.txt
