mkdir "$scratch/plain" && mkfifo "$scratch/plain/pipe" && cp examples/w03.txt "$scratch/plain"
cd "$scratch/plain" && sheet class .
