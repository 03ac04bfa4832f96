# 16,384 states of four bytes are a piece; the breach is the first state of the second.
yes 3 | head -n 16384 | awk '{ printf "\\0\\0\\0\\3" }' >"$scratch/long.log"
printf '%b' "$(cat "$scratch/long.log")" >"$scratch/states.log"
printf '\0\0\0\015' >>"$scratch/states.log"
sheet audit examples/clock-year.txt - <"$scratch/states.log" | head -n 4
