cd examples && sheet judge clock.txt
