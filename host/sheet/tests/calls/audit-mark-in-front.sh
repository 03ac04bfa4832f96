printf '\xef\xbb\xbf3\n7\n' | sheet audit examples/clock-year.txt -
