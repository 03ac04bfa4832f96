sheet write --help
