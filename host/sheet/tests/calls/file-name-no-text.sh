sheet judge $'examples/\xff.txt'
