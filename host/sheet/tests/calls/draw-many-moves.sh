# 57 states and 3,249 moves.
sheet draw host/sheet/tests/sheets/sixty-livable.txt >"$scratch/drawn.svg"
grep -o "[^>]*moves are drawn[^<]*" "$scratch/drawn.svg"
grep -c "57 moves on" "$scratch/drawn.svg"
grep -c "url(#move)" "$scratch/drawn.svg"
grep -c "url(#run)" "$scratch/drawn.svg"
