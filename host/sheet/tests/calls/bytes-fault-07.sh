printf '\1\0\12\1\1\0\0\0\1\0' | sheet judge --bytes -
