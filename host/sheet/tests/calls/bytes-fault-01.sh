printf '\1\0\7\1\0\0\0' | sheet judge --bytes -
