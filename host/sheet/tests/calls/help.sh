sheet --help
