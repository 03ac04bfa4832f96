# Rules are told with their lines and in the writer's order, by every verb that names rules; a sheet of bytes has neither.
text=host/sheet/tests/sheets/word-order.txt
names=--names=motor,file,summer,repeated
sheet judge --all "$text"
sheet clash "$text"
printf 'run\nmotor, file, summer\nmotor, repeated\nmotor\nback to 1\n' >"$scratch/order.paper"
sheet check "$text" "$scratch/order.paper"
printf '7\n9\n1\n' | sheet audit --numbers "$text" -
sheet draw "$text" | grep -o 'promise [^<]*'
sheet read "$text"
sheet write "$text" >"$scratch/order.sheet"
sheet judge --all "$names" - <"$scratch/order.sheet"
printf '7\n9\n1\n' >"$scratch/order.log"
sheet audit --numbers "$names" - "$scratch/order.log" <"$scratch/order.sheet"
