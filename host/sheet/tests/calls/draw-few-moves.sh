# 32 states and 60 moves: all are drawn, and no state with an arrow is said to have no way on.
sheet draw host/sheet/tests/sheets/sixty-struck.txt >"$scratch/drawn.svg"
grep -c "url(#move)" "$scratch/drawn.svg"
grep -o "round [0-9]*, no way on" "$scratch/drawn.svg" | sort | uniq -c
grep -o "all ways on struck[^<]*" "$scratch/drawn.svg" | sort | uniq -c
