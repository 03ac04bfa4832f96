sheet judge examples
