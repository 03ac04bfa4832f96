printf '\x01\x00\x0d\x01\x01\x00\x00\x00\x04\x01\x01\x01\x01' >"$scratch/twice.sheet"
printf '\x01\x00\x07\x01\x00\x00\x00' >"$scratch/short.sheet"
: >"$scratch/empty.sheet"
printf 'letters a\nstep b leads to a\n' >"$scratch/faulty.txt"
cp examples/w03.txt host/sheet/tests/sheets/no-room.txt "$scratch"
cd "$scratch" && sheet class w03.txt twice.sheet no-room.txt short.sheet faulty.txt empty.sheet missing.sheet
