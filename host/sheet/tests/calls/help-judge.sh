sheet judge --help
