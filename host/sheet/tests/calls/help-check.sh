sheet check --help
