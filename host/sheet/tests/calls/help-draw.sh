sheet draw --help
