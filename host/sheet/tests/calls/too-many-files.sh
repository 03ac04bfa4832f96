sheet read examples/clock.txt examples/w01.txt
