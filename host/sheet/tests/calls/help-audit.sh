sheet audit --help
