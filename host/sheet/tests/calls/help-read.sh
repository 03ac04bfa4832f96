sheet read --help
