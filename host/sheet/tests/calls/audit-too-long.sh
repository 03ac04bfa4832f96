# How far it is, is told or not as the machine is slow or fast.
head -c 4000004 /dev/zero | sheet audit examples/clock-year.txt - 2>"$scratch/said"
status=$?
grep -v "so far$" "$scratch/said" >&2
exit $status
