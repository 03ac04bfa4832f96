sheet judge examples/clock.txt --paper examples/no/such/folder
