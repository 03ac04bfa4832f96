sheet draw --dot examples/mistake-1.txt | head -n 12
