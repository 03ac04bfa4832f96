sheet judge --all examples/mistake-1.txt | head -n 1
