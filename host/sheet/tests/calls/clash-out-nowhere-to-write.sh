sheet clash examples/w04.txt --out no/such/folder/fight.txt >/dev/null
