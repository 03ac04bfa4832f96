sheet judge - </dev/null
