sheet judge --text - </dev/null
