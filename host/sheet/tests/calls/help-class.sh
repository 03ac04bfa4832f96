sheet class --help
