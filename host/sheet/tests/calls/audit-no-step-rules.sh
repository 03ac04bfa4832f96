printf '0\n1\n' | sheet audit examples/w01.txt -
