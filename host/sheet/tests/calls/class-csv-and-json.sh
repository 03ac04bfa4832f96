sheet class --csv --json examples
