awk 'BEGIN { printf "letters a\nfirst "; for (i = 0; i < 100000; i++) printf "word "; print "" }' | sheet judge -
