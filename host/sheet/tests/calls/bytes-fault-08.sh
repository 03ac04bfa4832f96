printf '\1\0\12\1\0\1\0\0\1\2' | sheet judge --bytes -
