sheet judge - -
