awk 'BEGIN { printf "letters a\nfirst a or "; for (i = 0; i < 250000; i++) printf "word"; print " or a" }' | sheet judge -
