printf 'motor, file\n# summer begins\nmotor,file,summer  # by night\nsummer, motor\nnone\n' | sheet audit examples/clock-year.txt -
