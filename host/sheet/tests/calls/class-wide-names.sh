mkdir "$scratch/wide" && cp examples/w03.txt "$scratch/wide/鍵盤.txt" && cp examples/w04.txt "$scratch/wide/four.txt"
cd "$scratch/wide" && sheet class .
