printf 'letters a\nfirst\0 a\n' | sheet judge -
