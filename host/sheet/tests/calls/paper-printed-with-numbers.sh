sheet judge examples/clock-mended.txt --paper - --numbers
