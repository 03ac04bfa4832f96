sheet judge examples/clock-mended.txt --paper - | sheet check examples/clock-mended.txt -
