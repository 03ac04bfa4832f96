sheet judge examples/no-such-file.txt
